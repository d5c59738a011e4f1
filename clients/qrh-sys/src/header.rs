//! The declarations, handed to the C compiler beside include/qrh.h.

use crate::{call_declarations, struct_checks};
use std::mem::{align_of, size_of};
use std::process::Command;
use std::string::String;
use std::{env, format, fs};

/// A type as C writes it, around a name.
pub trait C {
    fn declare(declarator: &str) -> String;
}

macro_rules! plain {
    ($($type:ty: $c:literal,)*) => {
        $(
            impl C for $type {
                fn declare(declarator: &str) -> String {
                    format!("{} {declarator}", $c)
                }
            }
        )*
    };
}

plain! {
    bool: "bool",
    u8: "uint8_t",
    u32: "uint32_t",
    u64: "uint64_t",
    usize: "size_t",
    f64: "double",
    *const f64: "const double *",
    *mut f64: "double *",
}

impl<T: C, const N: usize> C for [T; N] {
    fn declare(declarator: &str) -> String {
        T::declare(&format!("{declarator}[{N}]"))
    }
}

/// A field's name, the declaration of a pointer to it, its size and its offset.
pub struct Field {
    name: &'static str,
    pointer: String,
    size: usize,
    offset: usize,
}

pub fn field<T: C>(name: &'static str, offset: usize) -> Field {
    Field {
        name,
        pointer: T::declare("(*p)"),
        size: size_of::<T>(),
        offset,
    }
}

/// What C must find true of a struct: its size and alignment, and of each field the type, the size
/// and the offset.
pub fn check<T>(c: &str, fields: &[Field]) -> String {
    let (size, align) = (size_of::<T>(), align_of::<T>());
    let mut text =
        format!("_Static_assert(sizeof({c}) == {size} && _Alignof({c}) == {align}, \"{c}\");\n");
    for Field {
        name,
        pointer,
        size,
        offset,
    } in fields
    {
        text += &format!(
            "_Static_assert(sizeof((({c} *)0)->{name}) == {size}, \"{c}.{name}\");\n\
             _Static_assert(offsetof({c}, {name}) == {offset}, \"{c}.{name}\");\n\
             static inline void {c}_{name}({c} *s) {{ {pointer} = &s->{name}; (void)p; }}\n"
        );
    }
    text
}

#[test]
fn the_header_declares_the_same() {
    let mut text = String::from("#include \"qrh.h\"\n");
    text += &struct_checks().concat();
    text += &call_declarations().join("\n");
    text += "\n";
    let file = env::temp_dir().join(format!("qrh-{}.c", std::process::id()));
    fs::write(&file, &text).expect("a temporary file");
    let include = concat!(env!("CARGO_MANIFEST_DIR"), "/../../include");
    let compiler = env::var("CC").unwrap_or_else(|_| String::from("cc"));
    let compiled = Command::new(compiler)
        .args(["-std=c11", "-Wall", "-Wextra", "-Werror", "-fsyntax-only"])
        .args(["-I", include])
        .arg(&file)
        .output()
        .expect("a C compiler");
    let _ = fs::remove_file(&file);
    let said = String::from_utf8_lossy(&compiled.stderr);
    assert!(compiled.status.success(), "{said}\n{text}");
    // Nothing of the header is left out.
    let header = fs::read_to_string(format!("{include}/qrh.h")).expect("the header");
    let functions = header
        .lines()
        .filter(|line| line.starts_with(char::is_alphabetic) && line.contains(" qrh_"));
    assert_eq!(
        header.matches("typedef struct").count(),
        struct_checks().len()
    );
    assert_eq!(functions.count(), call_declarations().len());
}
