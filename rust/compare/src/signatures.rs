//! How functions and records are declared: in the proved sources, in Rust and in a C header. Each is
//! read into the notation of Rust's declarations, in which two of them can be compared.

/// A function or a record by its name and its parts: parameters or fields, as `demand: *const u32`,
/// and last the result of a function, as `-> u32`.
#[derive(Clone, Debug, PartialEq, Eq)]
pub struct Declaration {
    pub name: String,
    pub parts: Vec<String>,
}

/// Says what is exported and not declared, where what is declared differs first, and what is
/// declared and not exported.
pub fn differences(exported: &[Declaration], declared: &[Declaration]) -> Vec<String> {
    let lacking = exported
        .iter()
        .filter_map(|one| match named(declared, one) {
            Some(other) => first_difference(one, other),
            None => Some(format!("{} is not declared", one.name)),
        });
    let unknown = declared
        .iter()
        .filter(|one| named(exported, one).is_none())
        .map(|one| format!("{} is not exported", one.name));
    lacking.chain(unknown).collect()
}

fn named<'a>(list: &'a [Declaration], sought: &Declaration) -> Option<&'a Declaration> {
    list.iter().find(|one| one.name == sought.name)
}

fn first_difference(exported: &Declaration, declared: &Declaration) -> Option<String> {
    let most = exported.parts.len().max(declared.parts.len());
    let mut parts = (0..most).map(|part| (exported.parts.get(part), declared.parts.get(part)));
    let (one, other) = parts.find(|(one, other)| one != other)?;
    let shown = |part: Option<&String>| part.map_or("nothing".into(), |part| format!("`{part}`"));
    let (one, other) = (shown(one), shown(other));
    let name = &exported.name;
    Some(format!("{name}: {one} is exported, {other} declared"))
}

/// What a proved source exports: every `extern "C" fn`. A slice is two parameters, its pointer and
/// its length.
pub fn exported_functions(source: &str) -> Vec<Declaration> {
    let tokens = tokens(source);
    let functions = behind(&tokens, &["extern", "\"", "C", "\"", "fn"]);
    functions.map(|tokens| function(tokens, lent)).collect()
}

/// What the `extern "C"` blocks of a source in Rust declare.
pub fn rust_functions(source: &str) -> Vec<Declaration> {
    let tokens = tokens(source);
    let blocks = behind(&tokens, &["extern", "\"", "C", "\"", "{"]);
    let functions = blocks.flat_map(|tokens| behind(until(tokens, "}"), &["fn"]));
    let parameter = |name: &str, of: &[&str]| vec![format!("{name}: {}", spelled(of))];
    functions
        .map(|tokens| function(tokens, parameter))
        .collect()
}

/// What a header in C declares. Nothing but a function has parentheses there.
pub fn c_functions(header: &str) -> Vec<Declaration> {
    let header = without_directives(header);
    let tokens = tokens(&header);
    let function = |at: usize| {
        let parameters = until(&tokens[at + 1..], ")");
        let parameters = parameters.split(|&token| token == ",").map(c_part);
        let result = c_type(&tokens[at - 2..at - 1]);
        Declaration {
            name: tokens[at - 1].into(),
            parts: parameters.chain([format!("-> {result}")]).collect(),
        }
    };
    let opened = (0..tokens.len()).filter(|&at| tokens[at] == "(");
    opened.map(function).collect()
}

/// The record of this name, in a proved source or in one in Rust.
pub fn record(source: &str, name: &str) -> Option<Declaration> {
    let tokens = tokens(source);
    let fields = behind(&tokens, &["struct", name, "{"]).next()?;
    let fields = typed(until(fields, "}"));
    Some(Declaration {
        name: name.into(),
        parts: fields
            .map(|(name, of)| format!("{name}: {}", spelled(of)))
            .collect(),
    })
}

/// The record of this tag in a header in C.
pub fn c_record(header: &str, tag: &str) -> Option<Declaration> {
    let header = without_directives(header);
    let tokens = tokens(&header);
    let fields = behind(&tokens, &["struct", tag, "{"]).next()?;
    let fields = until(fields, "}").split(|&token| token == ";");
    Some(Declaration {
        name: c_type(&["struct", tag]),
        parts: fields
            .filter(|field| !field.is_empty())
            .map(c_part)
            .collect(),
    })
}

/// Words, and all else sign by sign; no comments.
fn tokens(source: &str) -> Vec<&str> {
    let is_word = |sign: char| sign.is_alphanumeric() || sign == '_';
    let mut tokens = Vec::new();
    let mut rest = source;
    while let Some(first) = rest.chars().next() {
        let comment = rest.starts_with("//") || rest.starts_with("/*");
        let end = match first {
            '/' if rest.starts_with("//") => rest.find('\n'),
            '/' if comment => rest.find("*/").map(|end| end + 2),
            _ if is_word(first) => rest.find(|sign| !is_word(sign)),
            _ => Some(first.len_utf8()),
        };
        let (token, after) = rest.split_at(end.unwrap_or(rest.len()));
        if !comment && !first.is_whitespace() {
            tokens.push(token);
        }
        rest = after;
    }
    tokens
}

fn without_directives(header: &str) -> String {
    let lines = header.lines().filter(|line| !line.starts_with('#'));
    lines.collect::<Vec<_>>().join("\n")
}

/// What follows each time that these tokens come.
fn behind<'a>(tokens: &'a [&'a str], sought: &[&str]) -> impl Iterator<Item = &'a [&'a str]> {
    let ends = (0..=tokens.len()).filter(|&end| tokens[..end].ends_with(sought));
    ends.map(|end| &tokens[end..])
}

fn until<'a>(tokens: &'a [&'a str], end: &str) -> &'a [&'a str] {
    let length = tokens.iter().position(|&token| token == end);
    &tokens[..length.unwrap_or(tokens.len())]
}

/// A function from its name on, in Rust's notation; `parameter` gives the parts that a parameter of
/// this name and type is.
fn function(tokens: &[&str], parameter: impl Fn(&str, &[&str]) -> Vec<String>) -> Declaration {
    let [name, "(", rest @ ..] = tokens else {
        panic!("{tokens:?} begins no function");
    };
    let parameters = until(rest, ")");
    let result = match rest[parameters.len() + 1..] {
        ["-", ">", result, ..] => result,
        _ => "()",
    };
    let parameters = typed(parameters).flat_map(|(name, of)| parameter(name, of));
    Declaration {
        name: (*name).into(),
        parts: parameters.chain([format!("-> {result}")]).collect(),
    }
}

/// Each name of a list, and its type.
fn typed<'a>(list: &'a [&'a str]) -> impl Iterator<Item = (&'a str, &'a [&'a str])> {
    let items = list.split(|&token| token == ",");
    let items = items.filter(|item| !item.is_empty());
    items.map(|item| match item {
        ["pub", name, ":", of @ ..] | [name, ":", of @ ..] => (*name, of),
        _ => panic!("{item:?} has no type"),
    })
}

/// What a parameter of an exported function is to its caller.
fn lent(name: &str, of: &[&str]) -> Vec<String> {
    let (pointer, to) = match of {
        ["&", "mut", to @ ..] => ("*mut", to),
        ["&", to @ ..] => ("*const", to),
        _ => return vec![format!("{name}: {}", spelled(of))],
    };
    match to {
        ["[", cell, "]"] => vec![
            format!("{name}: {pointer} {cell}"),
            format!("{name}_length: usize"),
        ],
        _ => vec![format!("{name}: {pointer} {}", spelled(to))],
    }
}

/// A type of Rust as it is written.
fn spelled(of: &[&str]) -> String {
    match of {
        ["*", access, to @ ..] => format!("*{access} {}", spelled(to)),
        ["[", cell, ";", count, "]"] => format!("[{cell}; {count}]"),
        _ => of.concat(),
    }
}

/// A parameter or a field in C.
fn c_part(tokens: &[&str]) -> String {
    let (pointer, rest) = match tokens {
        ["const", rest @ ..] => ("*const", rest),
        _ => ("*mut", tokens),
    };
    match rest {
        [of @ .., "*", name] => format!("{name}: {pointer} {}", c_type(of)),
        [of @ .., name, "[", count, "]"] => format!("{name}: {pointer} [{}; {count}]", c_type(of)),
        [of @ .., name] => format!("{name}: {}", c_type(of)),
        [] => String::new(),
    }
}

fn c_type(of: &[&str]) -> String {
    let known = match of {
        ["int32_t"] => "i32",
        ["size_t"] => "usize",
        ["struct", "gyodaebeun_run"] => "Run",
        ["uint8_t"] => "u8",
        ["uint32_t"] => "u32",
        ["uint64_t"] => "u64",
        ["void"] => "()",
        _ => return of.join(" "),
    };
    known.into()
}

#[cfg(test)]
mod tests {
    use super::*;

    const EXPORTED: &str = r#"
        // No other pub extern "C" fn than these.
        #[unsafe(no_mangle)]
        pub extern "C" fn first(
            run: &mut Run, rule: u32, read: &[u32], written: &mut [i32], place: &mut u32,
        ) -> u32
            ensures { result ≡ number_of place.new }
        {
            second(read, written)
        }

        pub extern "C" fn second(file: &[u8], report: &mut [u32; 4]) {}

        pub struct Run { pub nodes: u32, pub frames: u32, }
    "#;

    const RUST: &str = r#"
        unsafe extern "C" {
            pub fn first(
                run: *mut Run, rule: u32, read: *const u32, read_length: usize,
                written: *mut i32, written_length: usize, place: *mut u32,
            ) -> u32;
            pub fn second(file: *const u8, file_length: usize, report: *mut [u32; 4]);
        }

        pub fn third(rule: u32) {}

        pub struct Run {
            /// N, from 1 to 64.
            pub nodes: u32, pub frames: u32,
        }
    "#;

    const HEADER: &str = r#"
/* first(run) comes before second(file). */
#define BYTES (1 + 2)
#ifdef __cplusplus
extern "C" {
#endif
struct gyodaebeun_run {
    uint32_t nodes; /* N, 1 to 64 */ uint32_t frames;
};
uint32_t first(struct gyodaebeun_run *run, uint32_t rule, const uint32_t *read, size_t read_length,
               int32_t *written, size_t written_length, uint32_t *place);
void second(const uint8_t *file, size_t file_length, uint32_t report[4]);
"#;

    fn exported() -> Vec<Declaration> {
        let functions = exported_functions(EXPORTED);
        functions
            .into_iter()
            .chain(record(EXPORTED, "Run"))
            .collect()
    }

    fn said_of_rust(source: &str) -> Vec<String> {
        let functions = rust_functions(source);
        let declared: Vec<_> = functions.into_iter().chain(record(source, "Run")).collect();
        differences(&exported(), &declared)
    }

    fn said_of_c(header: &str) -> Vec<String> {
        let functions = c_functions(header);
        let run = c_record(header, "gyodaebeun_run");
        let declared: Vec<_> = functions.into_iter().chain(run).collect();
        differences(&exported(), &declared)
    }

    #[test]
    fn all_is_read() {
        let shown = |one: &Declaration| format!("{}: {}", one.name, one.parts.join(", "));
        let read: Vec<String> = exported().iter().map(shown).collect();
        let expected = [
            "first: run: *mut Run, rule: u32, read: *const u32, read_length: usize, \
             written: *mut i32, written_length: usize, place: *mut u32, -> u32",
            "second: file: *const u8, file_length: usize, report: *mut [u32; 4], -> ()",
            "Run: nodes: u32, frames: u32",
        ];
        assert_eq!(read, expected);
    }

    #[test]
    fn nothing_is_said_where_all_agree() {
        assert_eq!(said_of_rust(RUST), [""; 0]);
        assert_eq!(said_of_c(HEADER), [""; 0]);
    }

    /// What is said of a text in which one thing is changed into another.
    #[track_caller]
    fn changed(text: &str, from: &str, to: &str, said: fn(&str) -> Vec<String>) -> String {
        assert_eq!(text.matches(from).count(), 1, "{from}");
        said(&text.replace(from, to)).join("; ")
    }

    #[test]
    fn differences_in_rust_are_named() {
        for (from, to, expected) in [
            (
                "run: *mut Run, rule: u32",
                "rule: u32, run: *mut Run",
                "first: `run: *mut Run` is exported, `rule: u32` declared",
            ),
            (
                "read: *const u32",
                "read: *mut u32",
                "first: `read: *const u32` is exported, `read: *mut u32` declared",
            ),
            (
                "place: *mut u32,",
                "",
                "first: `place: *mut u32` is exported, `-> u32` declared",
            ),
            (
                "[u32; 4]);",
                "[u32; 4], rule: u32);",
                "second: `-> ()` is exported, `rule: u32` declared",
            ),
            (
                "pub fn second(",
                "pub fn other(",
                "second is not declared; other is not exported",
            ),
            (
                "nodes: u32, pub frames: u32",
                "nodes: u32",
                "Run: `frames: u32` is exported, nothing declared",
            ),
        ] {
            assert_eq!(changed(RUST, from, to, said_of_rust), expected);
        }
    }

    #[test]
    fn differences_in_c_are_named() {
        for (from, to, expected) in [
            (
                "size_t file_length, uint32_t report[4]",
                "uint32_t report[4], size_t file_length",
                "second: `file_length: usize` is exported, `report: *mut [u32; 4]` declared",
            ),
            (
                "const uint8_t *file",
                "uint8_t *file",
                "second: `file: *const u8` is exported, `file: *mut u8` declared",
            ),
            (
                "int32_t *written",
                "uint32_t *written",
                "first: `written: *mut i32` is exported, `written: *mut u32` declared",
            ),
            (
                "report[4]",
                "report[2]",
                "second: `report: *mut [u32; 4]` is exported, `report: *mut [u32; 2]` declared",
            ),
            (
                "void second",
                "uint32_t second",
                "second: `-> ()` is exported, `-> u32` declared",
            ),
            (
                "void second(const uint8_t *file, size_t file_length, uint32_t report[4]);",
                "",
                "second is not declared",
            ),
            (
                "uint32_t frames",
                "uint64_t frames",
                "Run: `frames: u32` is exported, `frames: u64` declared",
            ),
        ] {
            assert_eq!(changed(HEADER, from, to, said_of_c), expected);
        }
    }
}
