//! Recorded cases: README.md has the format. A file is a list of 64-bit words.

use crate::cases::{Case, Model, Outcome, Terms, lent};
use crate::edge::{self, Decimal, Factors, Schedule, Segment, VixPayoff};

/// The first word of a file: the bytes QRHCASE1.
pub const MARK: u64 = u64::from_le_bytes(*b"QRHCASE1");

/// The most doubles of a list or of a lent table.
pub const LIST: usize = 1024;

/// The most doubles of a workspace: one more than five matrices of dimension 67.
pub const WORKSPACE: usize = 5 * 67 * 67 + 1;

/// A case without the segments past the count, which no call reads.
#[must_use]
pub fn trimmed(mut case: Case) -> Case {
    match &mut case {
        Case::Trace { schedule, .. }
        | Case::Vanilla { schedule, .. }
        | Case::VixBatch { schedule, .. } => {
            let count = if schedule.count > 64 {
                0
            } else {
                schedule.count
            };
            schedule.segments[count..].fill(Segment::default());
        }
        _ => {}
    }
    case
}

/// Whether the lists and tables of a case stay within `LIST` and `WORKSPACE`.
#[must_use]
pub fn fits(case: &Case) -> bool {
    let (lists, spaces): (Vec<usize>, Vec<usize>) = match case {
        Case::Convert(_) | Case::Sqrt(_) => (vec![], vec![]),
        Case::Trace { draws, tables, .. } => ([&[draws.len()], &tables[..]].concat(), vec![]),
        Case::Vanilla {
            draws,
            observations,
            ..
        } => (vec![draws.len(), *observations], vec![]),
        Case::Vix { workspace, .. } => (vec![], vec![*workspace]),
        Case::VixBatch {
            draws,
            workspace,
            observations,
            ..
        } => (vec![draws.len(), *observations], vec![*workspace]),
        Case::Exponential {
            input,
            output,
            workspace,
            ..
        } => (vec![input.len(), *output], vec![*workspace]),
    };
    lists.iter().all(|length| *length <= LIST) && spaces.iter().all(|length| *length <= WORKSPACE)
}

/// A file of the cases with their outcomes.
#[must_use]
pub fn write(cases: &[(Case, Outcome)]) -> Vec<u64> {
    let mut words = vec![MARK, cases.len() as u64];
    for (case, outcome) in cases {
        let mut body = Words(vec![case.call() as u64 + 1]);
        body.case(case);
        body.outcome(case, outcome);
        words.push(body.0.len() as u64);
        words.extend(body.0);
    }
    words
}

/// The cases of a file with their outcomes.
///
/// # Errors
///
/// What is wrong with the file.
pub fn read(words: &[u64]) -> Result<Vec<(Case, Outcome)>, String> {
    let mut reader = Reader { words, at: 0 };
    if reader.word()? != MARK {
        return Err(String::from("no such mark"));
    }
    let count = reader.word()?;
    let mut cases = Vec::new();
    for _ in 0..count {
        let length = reader.word()? as usize;
        let end = reader.at + length;
        let case = reader.case()?;
        let outcome = reader.outcome(&case)?;
        if reader.at != end {
            return Err(format!("case {}: wrong length", cases.len() + 1));
        }
        cases.push((case, outcome));
    }
    if reader.at != words.len() {
        return Err(String::from("words after the last case"));
    }
    Ok(cases)
}

struct Words(Vec<u64>);

impl Words {
    fn push(&mut self, word: u64) {
        self.0.push(word);
    }

    fn size(&mut self, size: usize) {
        self.push(size as u64);
    }

    fn decimal(&mut self, d: Decimal) {
        self.push(d.low);
        self.push(u64::from(d.high) | u64::from(d.scale) << 32 | u64::from(d.negative) << 40);
    }

    fn doubles(&mut self, doubles: &[f64]) {
        self.0.extend(doubles.iter().map(|double| double.to_bits()));
    }

    fn list(&mut self, doubles: &[f64]) {
        self.size(doubles.len());
        self.doubles(doubles);
    }

    fn factors(&mut self, count: usize, factors: &[Decimal; 10]) {
        self.size(count);
        factors.iter().for_each(|factor| self.decimal(*factor));
    }

    fn model(&mut self, model: &Model) {
        self.list(&model.weights);
        self.list(&model.discounts);
        let inputs = &model.inputs;
        for d in [
            inputs.a,
            inputs.b,
            inputs.c,
            inputs.lambda,
            inputs.eta,
            inputs.spot,
        ] {
            self.decimal(d);
        }
        self.factors(inputs.factor_count, &inputs.factors);
    }

    fn schedule(&mut self, schedule: &Schedule) {
        let given = if schedule.count > 64 {
            0
        } else {
            schedule.count
        };
        self.size(schedule.count);
        self.size(given);
        for segment in &schedule.segments[..given] {
            self.decimal(segment.dt);
            self.push(u64::from(segment.steps));
        }
    }

    fn terms(&mut self, terms: &Terms) {
        match *terms {
            Terms::Vanilla { put, strike } => {
                self.push(u64::from(put));
                self.decimal(strike);
            }
            Terms::DownAndOut { strike, barrier } => {
                self.decimal(strike);
                self.decimal(barrier);
            }
        }
    }

    fn case(&mut self, case: &Case) {
        match case {
            Case::Convert(d) => self.decimal(*d),
            Case::Sqrt(value) => self.doubles(&[*value]),
            Case::Trace {
                model,
                schedule,
                draws,
                tables,
            } => {
                self.model(model);
                self.schedule(schedule);
                self.list(draws);
                tables.iter().for_each(|length| self.size(*length));
            }
            Case::Vanilla {
                mirrored: _,
                model,
                schedule,
                terms,
                paths,
                draws,
                observations,
            } => {
                self.model(model);
                self.schedule(schedule);
                self.terms(terms);
                self.size(*paths);
                self.list(draws);
                self.size(*observations);
            }
            Case::Vix {
                model,
                window,
                given,
                workspace,
            } => {
                self.model(model);
                self.decimal(*window);
                self.factors(given.count, &given.factors);
                self.size(*workspace);
            }
            Case::VixBatch {
                model,
                schedule,
                window,
                payoff,
                paths,
                draws,
                workspace,
                observations,
            } => {
                self.model(model);
                self.schedule(schedule);
                self.decimal(*window);
                self.push(u64::from(payoff.future));
                self.push(u64::from(payoff.put));
                self.decimal(payoff.strike);
                self.size(*paths);
                self.list(draws);
                self.size(*workspace);
                self.size(*observations);
            }
            Case::Exponential {
                dimension,
                input,
                output,
                workspace,
            } => {
                self.size(*dimension);
                self.list(input);
                self.size(*output);
                self.size(*workspace);
            }
        }
    }

    fn outcome(&mut self, case: &Case, outcome: &Outcome) {
        self.push(u64::from(outcome.number));
        self.0.extend(outcome.place);
        self.doubles(&outcome.values);
        self.0.extend(&outcome.counts);
        for (table, number) in outcome.tables.iter().zip(table_numbers(case)) {
            let before = lent(*number, table.len());
            let written = (0..table.len())
                .rev()
                .find(|i| table[*i].to_bits() != before[*i].to_bits())
                .map_or(0, |i| i + 1);
            self.list(&table[..written]);
        }
        if has_workspace(case) {
            self.push(u64::from(!outcome.workspace_free));
        }
    }
}

/// The numbers, for `lent`, of the tables that an outcome lists.
#[must_use]
pub fn table_numbers(case: &Case) -> &'static [usize] {
    match case {
        Case::Convert(_) | Case::Sqrt(_) | Case::Vix { .. } => &[],
        Case::Trace { .. } => &[1, 2, 3, 4],
        Case::Vanilla { .. } | Case::Exponential { .. } => &[1],
        Case::VixBatch { .. } => &[2],
    }
}

/// The number, for `lent`, of the workspace.
#[must_use]
pub fn workspace_number(case: &Case) -> usize {
    match case {
        Case::Exponential { .. } => 2,
        _ => 1,
    }
}

fn has_workspace(case: &Case) -> bool {
    matches!(
        case,
        Case::Vix { .. } | Case::VixBatch { .. } | Case::Exponential { .. }
    )
}

struct Reader<'a> {
    words: &'a [u64],
    at: usize,
}

impl Reader<'_> {
    fn word(&mut self) -> Result<u64, String> {
        let word = self.words.get(self.at).ok_or("cut")?;
        self.at += 1;
        Ok(*word)
    }

    fn size(&mut self) -> Result<usize, String> {
        Ok(self.word()? as usize)
    }

    fn bool(&mut self) -> Result<bool, String> {
        match self.word()? {
            0 => Ok(false),
            1 => Ok(true),
            word => Err(format!("{word} is no bool")),
        }
    }

    fn double(&mut self) -> Result<f64, String> {
        Ok(f64::from_bits(self.word()?))
    }

    fn doubles(&mut self, count: usize) -> Result<Vec<f64>, String> {
        (0..count).map(|_| self.double()).collect()
    }

    fn list(&mut self) -> Result<Vec<f64>, String> {
        let count = self.size()?;
        if count > LIST {
            return Err(format!("a list of {count}"));
        }
        self.doubles(count)
    }

    fn decimal(&mut self) -> Result<Decimal, String> {
        let low = self.word()?;
        let rest = self.word()?;
        if rest >> 41 != 0 {
            return Err(format!("{rest} is no part of a Decimal"));
        }
        Ok(Decimal {
            low,
            high: rest as u32,
            scale: (rest >> 32) as u8,
            negative: rest >> 40 == 1,
        })
    }

    fn factors(&mut self) -> Result<(usize, [Decimal; 10]), String> {
        let count = self.size()?;
        let mut factors = [Decimal::default(); 10];
        for factor in &mut factors {
            *factor = self.decimal()?;
        }
        Ok((count, factors))
    }

    fn model(&mut self) -> Result<Model, String> {
        let weights = self.list()?;
        let discounts = self.list()?;
        let [a, b, c, lambda, eta, spot] = [
            self.decimal()?,
            self.decimal()?,
            self.decimal()?,
            self.decimal()?,
            self.decimal()?,
            self.decimal()?,
        ];
        let (factor_count, factors) = self.factors()?;
        Ok(Model {
            weights,
            discounts,
            inputs: edge::Model {
                a,
                b,
                c,
                lambda,
                eta,
                spot,
                factor_count,
                factors,
            },
        })
    }

    fn schedule(&mut self) -> Result<Schedule, String> {
        let mut schedule = Schedule {
            count: self.size()?,
            ..Default::default()
        };
        let given = self.size()?;
        if given > 64 {
            return Err(format!("{given} segments"));
        }
        for segment in &mut schedule.segments[..given] {
            segment.dt = self.decimal()?;
            segment.steps = self.word()? as u32;
        }
        Ok(schedule)
    }

    fn terms(&mut self, call: u64) -> Result<Terms, String> {
        Ok(match call {
            4 | 5 => Terms::Vanilla {
                put: self.bool()?,
                strike: self.decimal()?,
            },
            _ => Terms::DownAndOut {
                strike: self.decimal()?,
                barrier: self.decimal()?,
            },
        })
    }

    fn case(&mut self) -> Result<Case, String> {
        let call = self.word()?;
        Ok(match call {
            1 => Case::Convert(self.decimal()?),
            2 => Case::Sqrt(self.double()?),
            3 => Case::Trace {
                model: self.model()?,
                schedule: self.schedule()?,
                draws: self.list()?,
                tables: [self.size()?, self.size()?, self.size()?, self.size()?],
            },
            4 | 5 | 9 | 10 => Case::Vanilla {
                mirrored: call == 5 || call == 10,
                model: self.model()?,
                schedule: self.schedule()?,
                terms: self.terms(call)?,
                paths: self.size()?,
                draws: self.list()?,
                observations: self.size()?,
            },
            6 => {
                let model = self.model()?;
                let window = self.decimal()?;
                let (count, factors) = self.factors()?;
                Case::Vix {
                    model,
                    window,
                    given: Factors { count, factors },
                    workspace: self.size()?,
                }
            }
            7 => Case::VixBatch {
                model: self.model()?,
                schedule: self.schedule()?,
                window: self.decimal()?,
                payoff: VixPayoff {
                    future: self.bool()?,
                    put: self.bool()?,
                    strike: self.decimal()?,
                },
                paths: self.size()?,
                draws: self.list()?,
                workspace: self.size()?,
                observations: self.size()?,
            },
            8 => Case::Exponential {
                dimension: self.size()?,
                input: self.list()?,
                output: self.size()?,
                workspace: self.size()?,
            },
            _ => return Err(format!("call {call}")),
        })
    }

    fn outcome(&mut self, case: &Case) -> Result<Outcome, String> {
        let number = self.word()? as u32;
        let place = [self.word()?, self.word()?, self.word()?, self.word()?];
        // Doubles, counts, lengths of the tables, length of the workspace.
        let (values, counts, lengths, workspace) = match case {
            Case::Convert(_) | Case::Sqrt(_) => (1, 0, vec![], 0),
            Case::Trace { tables, .. } => (0, 1, tables.to_vec(), 0),
            Case::Vanilla { observations, .. } => (4, 3, vec![*observations], 0),
            Case::Vix { workspace, .. } => (2, 0, vec![], *workspace),
            Case::VixBatch {
                observations,
                workspace,
                ..
            } => (4, 2, vec![*observations], *workspace),
            Case::Exponential {
                output, workspace, ..
            } => (0, 1, vec![*output], *workspace),
        };
        let values = self.doubles(values)?;
        let counts = (0..counts)
            .map(|_| self.word())
            .collect::<Result<Vec<u64>, String>>()?;
        let mut tables = Vec::new();
        for (length, table) in lengths.into_iter().zip(table_numbers(case)) {
            let written = self.list()?;
            let mut after = lent(*table, length);
            after
                .get_mut(..written.len())
                .ok_or("more written than lent")?
                .copy_from_slice(&written);
            tables.push(after);
        }
        let workspace_free = has_workspace(case) && !self.bool()?;
        Ok(Outcome {
            number,
            place,
            values,
            counts,
            tables,
            workspace: lent(workspace_number(case), workspace),
            workspace_free,
        })
    }
}
