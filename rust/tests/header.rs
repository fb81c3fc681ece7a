//! The C header and the declarations for Rust name the same functions, in one order, with the same
//! arguments.

use std::fmt;

const HEADER: &str = include_str!("../../include/jinxbanyan.h");
const DECLARED: &str = include_str!("../src/declared.rs");

/// A name with its type, in Rust's words. A function's own type is what it returns, `()` where it
/// returns nothing.
#[derive(PartialEq)]
struct Named {
    name: String,
    kind: String,
}

struct Function {
    itself: Named,
    arguments: Vec<Named>,
}

impl fmt::Display for Named {
    fn fmt(&self, formatter: &mut fmt::Formatter) -> fmt::Result {
        write!(formatter, "{}: {}", self.name, self.kind)
    }
}

fn named(name: &str, kind: String) -> Named {
    Named { name: name.trim().to_string(), kind }
}

/// The text without what stands between two marks, marks included.
fn without(text: &str, from: &str, to: &str) -> String {
    let mut parts = text.split(from);
    let first = parts.next().unwrap_or_default().to_string();
    parts.fold(first, |kept, part| kept + part.split_once(to).expect("an end").1)
}

/// The functions of a text that has nothing else. A declaration ends with its line, and is parted
/// at its brackets: what stands before, the arguments, what stands after.
fn functions(text: &str, function: fn(&str, Vec<&str>, &str) -> Function) -> Vec<Function> {
    let declarations = text.split(";\n").map(str::trim).filter(|part| !part.is_empty());
    declarations
        .map(|declaration| {
            let (before, rest) = declaration.split_once('(').expect(declaration);
            let (arguments, after) = rest.split_once(')').expect(declaration);
            let arguments = arguments.split(',').map(str::trim);
            function(before, arguments.filter(|part| !part.is_empty()).collect(), after)
        })
        .collect()
}

fn in_header(text: &str) -> Vec<Function> {
    let text = without(&without(text, "/*", "*/"), "#", "\n");
    let text = text.replace("extern \"C\" {", "").replace('}', "");
    functions(&text, |before, arguments, _| Function {
        itself: in_c(before),
        arguments: arguments.into_iter().map(in_c).collect(),
    })
}

/// C's `type name`, `type *name` or `type name[n]`, each `const` or not.
fn in_c(text: &str) -> Named {
    let (constant, text) = match text.strip_prefix("const ") {
        Some(rest) => ("const", rest.trim()),
        None => ("mut", text),
    };
    let (kind, name) = text.split_once(' ').expect(text);
    let kind = match kind {
        "size_t" => "usize",
        "uint32_t" => "u32",
        "uint8_t" => "u8",
        "void" => "()",
        _ => panic!("a type that Rust has no name for here: {text}"),
    };
    if let Some(name) = name.strip_prefix('*') {
        return named(name, format!("*{constant} {kind}"));
    }
    match name.split_once('[') {
        Some((name, count)) => {
            named(name, format!("*{constant} [{kind}; {}]", count.trim_end_matches(']')))
        }
        None => named(name, kind.to_string()),
    }
}

fn in_rust(text: &str) -> Vec<Function> {
    let text = without(text, "//", "\n");
    let text = text.trim().strip_prefix("extern \"C\" {").expect("one block of declarations");
    let text = text.strip_suffix('}').expect("the block's end");
    functions(text, |before, arguments, after| {
        let returned = match after.trim() {
            "" => "()",
            after => after.strip_prefix("-> ").expect(after),
        };
        let argument = |argument: &str| {
            let (name, kind) = argument.split_once(':').expect(argument);
            named(name, kind.trim().to_string())
        };
        Function {
            itself: named(before.strip_prefix("pub fn ").expect(before), returned.to_string()),
            arguments: arguments.into_iter().map(argument).collect(),
        }
    })
}

/// Where the two first differ, functions and arguments counted from 1.
fn difference(header: &[Function], declared: &[Function]) -> Option<String> {
    let told = |named: Option<&Named>| named.map_or("nothing".to_string(), Named::to_string);
    for at in 0..header.len().max(declared.len()) {
        let (here, there) = (header.get(at), declared.get(at));
        let itself = |function: Option<&Function>| told(function.map(|function| &function.itself));
        if itself(here) != itself(there) {
            return Some(format!(
                "function {}: the header has {}, declared is {}",
                at + 1,
                itself(here),
                itself(there)
            ));
        }
        let (Some(here), Some(there)) = (here, there) else { continue };
        for at in 0..here.arguments.len().max(there.arguments.len()) {
            let (ours, theirs) = (here.arguments.get(at), there.arguments.get(at));
            if ours != theirs {
                return Some(format!(
                    "{}, argument {}: the header has {}, declared is {}",
                    here.itself.name,
                    at + 1,
                    told(ours),
                    told(theirs)
                ));
            }
        }
    }
    None
}

#[test]
fn header_and_declarations_are_alike() {
    let (header, declared) = (in_header(HEADER), in_rust(DECLARED));
    assert_eq!(difference(&header, &declared), None);
    assert_eq!(header.len(), 12);
}

/// The difference that a change of the header makes.
fn changed(from: &str, to: &str) -> String {
    let (before, after) = HEADER.split_once(from).expect(from);
    let header = in_header(&[before, to, after].concat());
    difference(&header, &in_rust(DECLARED)).expect("a difference")
}

#[test]
fn each_change_of_an_argument_is_told() {
    let changes = [
        (
            ("uint32_t start,", "uint32_t first,"),
            "jb_draw, argument 10: the header has first: u32, declared is start: u32",
        ),
        (
            ("uint32_t dropping", "size_t dropping"),
            "jb_trace_by_stack, argument 11: the header has dropping: usize, \
             declared is dropping: u32",
        ),
        (
            ("const uint8_t *file", "uint8_t *file"),
            "jb_read_sheet, argument 1: the header has file: *mut u8, declared is file: *const u8",
        ),
        (
            (
                "uint8_t *file, size_t file_count, uint32_t size",
                "const uint8_t *file, size_t file_count, uint32_t size",
            ),
            "jb_write_sheet, argument 7: the header has file: *const u8, declared is file: *mut u8",
        ),
        (
            ("jb_trace_all(uint32_t edition, ", "jb_trace_all("),
            "jb_trace_all, argument 1: the header has rows: usize, declared is edition: u32",
        ),
        (
            ("uint32_t results[5]", "uint32_t results[6]"),
            "jb_trace_by_stack, argument 18: the header has results: *mut [u32; 6], \
             declared is results: *mut [u32; 5]",
        ),
        (
            ("uint32_t sums[2]", "uint32_t sums[3]"),
            "jb_trace_all, argument 18: the header has sums: *mut [u32; 3], \
             declared is sums: *mut [u32; 2]",
        ),
        (
            ("size_t part[2]", "uint32_t part[2]"),
            "jb_starts_of, argument 6: the header has part: *mut [u32; 2], \
             declared is part: *mut [usize; 2]",
        ),
        (
            ("size_t up_straight_count, ", ""),
            "jb_flow_lengths, argument 14: the header has up_diagonal: *mut u32, \
             declared is up_straight_count: usize",
        ),
        (
            ("uint32_t from, uint32_t to", "uint32_t to, uint32_t from"),
            "jb_convert, argument 1: the header has to: u32, declared is from: u32",
        ),
        (
            ("uint8_t *converted", "const uint8_t *converted"),
            "jb_convert, argument 7: the header has converted: *const u8, \
             declared is converted: *mut u8",
        ),
        (
            ("size_t rows, size_t cols", "size_t cols, size_t rows"),
            "jb_accumulate, argument 1: the header has cols: usize, declared is rows: usize",
        ),
        (
            (", uint32_t drawn[1]", ""),
            "jb_draw, argument 13: the header has nothing, declared is drawn: *mut [u32; 1]",
        ),
        (
            ("uint32_t shape[3]", "uint32_t shape[3], size_t more"),
            "jb_read_sheet, argument 8: the header has more: usize, declared is nothing",
        ),
    ];
    for ((from, to), told) in changes {
        assert_eq!(changed(from, to), told);
    }
}

#[test]
fn each_change_of_a_function_is_told() {
    let draw = &HEADER[HEADER.find("uint32_t jb_draw").expect("jb_draw")..];
    let draw = &draw[..=draw.find(';').expect("its end")];
    let write = &HEADER[HEADER.find("uint32_t jb_write_sheet").expect("jb_write_sheet")..];
    let write = &write[..=write.find(';').expect("its end")];
    let changes = [
        (
            (draw, String::new()),
            "function 10: the header has jb_read_sheet: u32, declared is jb_draw: u32",
        ),
        (
            (write, String::new()),
            "function 12: the header has nothing, declared is jb_write_sheet: u32",
        ),
        (
            (write, format!("{write}\nuint32_t jb_more(size_t rows);")),
            "function 13: the header has jb_more: u32, declared is nothing",
        ),
        (
            ("uint32_t jb_draw", "size_t jb_draw".to_string()),
            "function 10: the header has jb_draw: usize, declared is jb_draw: u32",
        ),
        (
            ("void jb_starts_of", "uint32_t jb_starts_of".to_string()),
            "function 9: the header has jb_starts_of: u32, declared is jb_starts_of: ()",
        ),
        (
            ("jb_check_accumulation", "jb_check".to_string()),
            "function 2: the header has jb_check: u32, declared is jb_check_accumulation: u32",
        ),
    ];
    for ((from, to), told) in changes {
        assert_eq!(changed(from, &to), told);
    }
}
