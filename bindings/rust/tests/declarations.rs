//! Compares `src/ffi.rs` and what is in `src/ffi`, and the declarations for Rust beside the header
//! files, with the header files of the library, if they are there: each constant; each struct, with
//! the type and the place of each field; the parameters of each function, and what it returns. Types
//! are written as Rust has them, but pointers as `const T*` and `mut T*`.

use std::collections::BTreeMap;

// What is declared, by its name.
type Declared = BTreeMap<String, String>;

// A header file, the prefix that its constants have, and the declarations here.
const FILES: [(&str, &str, &str); 4] = [
    (
        "etherparse_c/include/etherparse.h",
        "ETHERPARSE_",
        include_str!("../src/ffi.rs"),
    ),
    (
        "etherparse_c/include/etherparse_filter.h",
        "ETHERPARSE_FILTER_",
        include_str!("../src/ffi/filter.rs"),
    ),
    (
        "etherparse_c/include/etherparse_reassembly.h",
        "ETHERPARSE_DEFRAG_",
        include_str!("../src/ffi/reassembly.rs"),
    ),
    (
        "etherparse_c/include/etherparse_rewriting.h",
        "ETHERPARSE_REWRITING_",
        include_str!("../src/ffi/rewriting.rs"),
    ),
];

// The declarations for Rust beside a header file.
fn beside(path: &str) -> String {
    let root = concat!(env!("CARGO_MANIFEST_DIR"), "/../../crates");
    let path = path.replace(".h", ".rs");
    std::fs::read_to_string(format!("{root}/{path}")).expect(&path)
}

// The header file of a path below `crates`, without comments.
fn header(path: &str) -> Option<String> {
    let root = concat!(env!("CARGO_MANIFEST_DIR"), "/../../crates");
    if !std::path::Path::new(root).join("etherparse_c").is_dir() {
        println!("left out: the header files are not there");
        return None;
    }
    let text = std::fs::read_to_string(format!("{root}/{path}")).expect(path);
    let mut pieces = text.split("/*");
    let first = pieces.next().unwrap().to_string();
    Some(pieces.fold(first, |bare, piece| {
        bare + piece.split_once("*/").unwrap().1
    }))
}

// What stands between two texts, the first time, and in each place.
fn between<'a>(text: &'a str, open: &'a str, close: &'a str) -> &'a str {
    all_between(text, open, close).next().expect(open)
}

fn all_between<'a>(text: &'a str, open: &'a str, close: &'a str) -> impl Iterator<Item = &'a str> {
    text.split(open)
        .skip(1)
        .map(move |rest| rest.split(close).next().unwrap())
}

// Parts of a list that are not empty, on one line each.
fn listed(text: &str, separator: impl Fn(char) -> bool) -> Vec<String> {
    let parts = text
        .split(separator)
        .map(|part| part.split_whitespace().collect::<Vec<_>>().join(" "));
    parts.filter(|part| !part.is_empty()).collect()
}

// `etherparse_ipv4_view_answer` as `Ipv4ViewAnswer`.
fn camel(name: &str) -> String {
    let words = name.strip_prefix("etherparse_").expect(name).split('_');
    words
        .map(|word| word[..1].to_uppercase() + &word[1..])
        .collect()
}

fn type_of_c(text: &str) -> String {
    let (text, is_pointer) = match text.trim().strip_suffix('*') {
        Some(target) => (target.trim(), true),
        None => (text.trim(), false),
    };
    let (target, access) = match text.strip_prefix("const ") {
        Some(target) => (target, "const"),
        None => (text, "mut"),
    };
    let name = match target {
        "size_t" => "usize".to_string(),
        "bool" => "bool".to_string(),
        "char" => "u8".to_string(),
        "void" => "()".to_string(),
        _ => match target.strip_prefix("struct ") {
            Some(name) => camel(name),
            None => format!("u{}", between(target, "uint", "_t")),
        },
    };
    if is_pointer {
        format!("{access} {name}*")
    } else {
        name
    }
}

// The name and the type of a field, a parameter or a function, and the length if it is an array.
fn item_of_c(text: &str) -> (String, String, Option<String>) {
    let (text, len) = match text.strip_suffix(']').and_then(|text| text.split_once('[')) {
        Some((text, len)) => (text, Some(len.to_string())),
        None => (text, None),
    };
    let at = text.rfind([' ', '*']).unwrap() + 1;
    (text[at..].to_string(), type_of_c(&text[..at]), len)
}

fn type_of_rust(text: &str) -> String {
    for (prefix, access) in [
        ("*const ", "const"),
        ("*mut ", "mut"),
        ("&mut ", "mut"),
        ("&", "const"),
    ] {
        if let Some(target) = text.strip_prefix(prefix) {
            return format!("{access} {target}*");
        }
    }
    text.to_string()
}

// Those of enums, and the numbers that are defined, but for those of the version.
fn constants_of_c(text: &str, prefix: &str) -> Declared {
    let groups = all_between(text, "\nenum ", "}")
        .flat_map(|group| listed(group.split_once('{').unwrap().1, |c| c == ','));
    let defined = all_between(text, "\n#define ", "\n").map(|line| line.replacen(' ', " = ", 1));
    let pair = |one: String| {
        let (name, number) = one.split_once(" = ")?;
        let bare = name
            .strip_prefix(prefix)
            .or(name.strip_prefix("ETHERPARSE_"))?;
        let is_constant = number.parse::<u64>().is_ok() && !bare.starts_with("VERSION");
        is_constant.then(|| (bare.to_string(), number.to_string()))
    };
    groups.chain(defined).filter_map(pair).collect()
}

fn constants_of_rust(here: &str) -> Declared {
    let text = between(here, "\nconstants! {", "\n}");
    let parts = listed(text, |c| matches!(c, ',' | ':' | ';'));
    let pairs = parts.iter().filter_map(|part| part.split_once(" = "));
    pairs
        .map(|(name, number)| (name.to_string(), number.to_string()))
        .collect()
}

// All but the memory of a filter, whose size and alignment are constants.
fn structs_of_c(text: &str) -> Declared {
    let mut found = Declared::new();
    for one in all_between(text, "\nstruct ", "\n}") {
        let Some((name, fields)) = one.split_once(" {").filter(|one| !one.0.contains(' ')) else {
            continue; // a function
        };
        if fields.contains("union {") {
            continue;
        }
        for field in listed(fields, |c| c == ';') {
            let (field, of, len) = item_of_c(&field);
            let of = len.map_or(of.clone(), |len| format!("[{of}; {len}]"));
            found.insert(format!("{}.{field}", camel(name)), of);
        }
    }
    for line in text.lines().filter(|line| line.starts_with("ETHERPARSE_")) {
        let words = listed(line, |c: char| !c.is_alphanumeric() && c != '_');
        let words: Vec<&str> = words.iter().map(String::as_str).collect();
        match words[..] {
            [_, "sizeof", "struct", "etherparse_filter", _] => (),
            [_, "sizeof", "struct", name, size] | [_, name, size] => {
                found.insert(camel(name), size.to_string());
            }
            [_, "offsetof", "struct", name, field, place] | [_, name, field, place, _] => {
                let field = found.get_mut(&format!("{}.{field}", camel(name))).unwrap();
                *field += &format!(" = {place}");
            }
            _ => (),
        }
    }
    // The only field of a struct has no line for its place.
    for (_, of) in found
        .iter_mut()
        .filter(|(name, of)| name.ends_with(".words") && !of.contains(" = "))
    {
        *of += " = 0";
    }
    found
}

fn structs_of_rust(here: &str) -> Declared {
    let mut found = Declared::new();
    let mut name = "";
    for line in between(here, "\nstructs! {", "\n}").lines().map(str::trim) {
        if let Some((of, size)) = line
            .strip_suffix(" {")
            .and_then(|line| line.split_once(", "))
        {
            name = of;
            found.insert(name.to_string(), size.to_string());
        } else if let Some((field, of)) = line
            .strip_suffix(',')
            .and_then(|line| line.split_once(": "))
        {
            let (of, place) = of.split_once(" = ").unwrap();
            found.insert(
                format!("{name}.{field}"),
                format!("{} = {place}", type_of_rust(of)),
            );
        }
    }
    found
}

// The names and the types of fields in their order, each on a line, without the memory of a filter.
fn fields_of_c(text: &str) -> Declared {
    let mut found = Declared::new();
    for one in all_between(text, "\nstruct ", "\n}").filter(|one| !one.contains("union {")) {
        let Some((name, fields)) = one.split_once(" {").filter(|one| !one.0.contains(' ')) else {
            continue; // a function
        };
        let fields = listed(fields, |c| c == ';').into_iter().map(|field| {
            let (field, of, len) = item_of_c(&field);
            let of = len.map_or(of.clone(), |len| format!("[{of}; {len}]"));
            format!("{field}: {of}\n")
        });
        found.insert(camel(name), fields.collect());
    }
    found
}

fn fields_beside(text: &str) -> Declared {
    let mut found = Declared::new();
    for one in all_between(text, "\npub struct ", "\n}") {
        let (name, fields) = one.split_once(" {").unwrap();
        let fields = fields.lines().filter_map(|line| {
            let (field, of) = line.trim().strip_prefix("pub ")?.split_once(": ")?;
            Some(format!(
                "{field}: {}\n",
                type_of_rust(of.trim_end_matches(','))
            ))
        });
        found.insert(name.to_string(), fields.collect());
    }
    found
}

fn constants_beside(text: &str) -> Declared {
    let lines = text.lines().filter_map(|line| {
        let (name, number) = line.strip_prefix("pub const ")?.split_once(": ")?;
        let number = number.split_once(" = ")?.1.strip_suffix(';')?;
        let bare = name.strip_prefix("FILTER_").unwrap_or(name);
        Some((bare.to_string(), number.to_string()))
    });
    let aligned = all_between(text, "#[repr(C, align(", ")")
        .map(|bytes| ("ALIGN".to_string(), bytes.to_string()));
    lines.chain(aligned).collect()
}

fn functions_of_c(text: &str) -> Declared {
    let bare: String = text
        .split_once("extern \"C\" {")
        .unwrap()
        .1
        .lines()
        .filter(|line| !line.starts_with('#') && !line.starts_with("ETHERPARSE_"))
        .map(|line| format!("{line}\n"))
        .collect();
    let mut found = Declared::new();
    for one in listed(&bare, |c| matches!(c, ';' | '}'))
        .iter()
        .filter(|one| one.contains('('))
    {
        let (head, parameters) = one.strip_suffix(')').unwrap().split_once('(').unwrap();
        let (name, answer, _) = item_of_c(head);
        let types: Vec<_> = listed(parameters, |c| c == ',')
            .iter()
            .filter(|one| *one != "void")
            .map(|one| item_of_c(one))
            .map(|(name, of, len)| {
                let of = len.map_or(of.clone(), |len| format!("const [{of}; {len}]*"));
                format!("{}: {of}", name.trim_end_matches("_bytes"))
            })
            .collect();
        found.insert(name, format!("({}) {answer}", types.join(", ")));
    }
    found
}

fn functions_of_rust(here: &str, open: &str) -> Declared {
    let mut found = Declared::new();
    for one in between(here, open, "\n}")
        .split(";\n")
        .filter(|one| one.contains('('))
    {
        let (name, rest) = one.split_once('(').unwrap();
        let (parameters, answer) = rest.rsplit_once(')').unwrap();
        let types: Vec<_> = listed(parameters, |c| c == ',')
            .iter()
            .map(|one| one.split_once(": ").unwrap())
            .map(|(name, of)| format!("{name}: {}", type_of_rust(of)))
            .collect();
        let answer = answer
            .trim_end_matches(';')
            .strip_prefix(" -> ")
            .unwrap_or("()");
        found.insert(
            name.trim().trim_start_matches("pub fn ").to_string(),
            format!("({}) {answer}", types.join(", ")),
        );
    }
    found
}

#[test]
fn constants_are_those_of_the_headers() {
    for (path, prefix, here) in FILES {
        let Some(text) = header(path) else { return };
        assert_eq!(constants_of_rust(here), constants_of_c(&text, prefix));
        assert_eq!(
            constants_beside(&beside(path)),
            constants_of_c(&text, prefix)
        );
    }
}

#[test]
fn structs_are_those_of_the_headers() {
    for (path, _, here) in FILES {
        let Some(text) = header(path) else { return };
        assert_eq!(structs_of_rust(here), structs_of_c(&text));
        let mut fields = fields_beside(&beside(path));
        // The memory of a filter, and the frame of the other file.
        if path.ends_with("_filter.h") {
            fields.retain(|name, _| name != "Filter" && name != "Frame");
        }
        assert_eq!(fields, fields_of_c(&text));
    }
}

#[test]
fn functions_are_those_of_the_headers() {
    for (path, _, here) in FILES {
        let Some(text) = header(path) else { return };
        let beside = beside(path);
        let expected = functions_of_c(&text);
        assert_eq!(functions_of_rust(here, "\nfunctions! {"), expected);
        assert_eq!(
            functions_of_rust(&beside, "\nunsafe extern \"C\" {"),
            expected
        );
    }
}

#[test]
fn the_version_is_that_of_the_header() {
    let Some(text) = header(FILES[0].0) else {
        return;
    };
    let version = between(&text, "#define ETHERPARSE_VERSION \"", "\"");
    assert_eq!(version, env!("CARGO_PKG_VERSION"));
    let part =
        |name| between(&text, &format!("#define ETHERPARSE_VERSION_{name} "), "\n").to_string();
    assert_eq!(["MAJOR", "MINOR", "PATCH"].map(part).join("."), version);
}
