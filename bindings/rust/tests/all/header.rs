//! The declarations of the crate match the header.

use std::collections::BTreeMap;
use std::fs;
use std::path::Path;

use antientropy::{Kind, Order, Refusal, Report, Source, VerdictKind};

/// Returns the text of a file without its comments, with white space as single blanks.
fn text(path: &str) -> String {
    let path = Path::new(env!("CARGO_MANIFEST_DIR")).join(path);
    let text = fs::read_to_string(&path).unwrap_or_else(|error| panic!("{}: {error}", path.display()));
    let lines = text.lines().filter(|line| !line.trim_start().starts_with("//"));
    let text = lines.flat_map(str::split_whitespace).collect::<Vec<_>>().join(" ");
    let mut parts = text.split("/*");
    let first = parts.next().unwrap_or_default().to_owned();
    parts.fold(first, |kept, part| kept + part.split_once("*/").unwrap().1)
}

fn header() -> String {
    text("../../include/antientropy.h")
}

/// Returns the texts between a mark and the next end.
fn between<'a>(text: &'a str, from: &'a str, to: &'a str) -> impl Iterator<Item = &'a str> {
    text.split(from).skip(1).map(move |part| part.split_once(to).unwrap().0)
}

/// Returns the name and the type in Rust of a field or an argument of C: `const uint8_t *key`.
fn field(text: &str) -> (String, String) {
    let (ty, name) = text.trim().rsplit_once(' ').unwrap();
    let constant = if ty.starts_with("const ") { "*const " } else { "*mut " };
    let ty = rust_type(ty.trim_start_matches("const "));
    match name.strip_prefix('*') {
        Some(name) => (name.to_owned(), format!("{constant}{ty}")),
        None => (name.replace("[ANTIENTROPY_ROOT_LEN]", ""), ty),
    }
}

fn rust_type(ty: &str) -> String {
    let ty = ty.strip_prefix("struct ").unwrap_or(ty);
    let known = match ty {
        "uint8_t" => "u8",
        "uint16_t" => "u16",
        "uint32_t" => "u32",
        "uint64_t" => "u64",
        "size_t" => "usize",
        "bool" => "bool",
        "void" => "c_void",
        "antientropy_replica" | "antientropy_renewal" | "antientropy_snapshot" | "antientropy_portion" => "Handle",
        "antientropy_exchange" | "antientropy_hints" | "antientropy_slots" => "Handle",
        other => return camel(other.strip_prefix("antientropy_").unwrap()),
    };
    known.to_owned()
}

/// Returns `BadClock` for `BAD_CLOCK` or `bad_clock`.
fn camel(name: &str) -> String {
    let word = |word: &str| word[..1].to_uppercase() + &word[1..].to_lowercase();
    name.split('_').map(word).collect()
}

/// The calls that only C programs make: the loop of a sync, with its struct `Taken`, which an exchange replaces here,
/// and reads of a part of a key's versions.
const FOR_C_ALONE: [&str; 13] = [
    "open", "open_at_moment", "outstanding", "ask_at", "ask", "outline_at", "take", "session", "cancel", "versions",
    "value", "clock", "key_after",
];

/// Returns the arguments and the result of each function of the library, by its name, as Rust has them.
fn functions_of_the_header() -> BTreeMap<String, String> {
    let text = header().replace("static inline uint32_t", "");
    let mut functions = BTreeMap::new();
    for (result, rust_result) in [("uint32_t", " -> u32"), ("void", "")] {
        for declared in between(&text, &format!(" {result} antientropy_"), ");") {
            let (name, arguments) = declared.split_once('(').unwrap();
            let call = name.trim_start_matches("share_");
            if FOR_C_ALONE.contains(&call) {
                continue;
            }
            let arguments = arguments.split(',').filter(|argument| *argument != "void").map(field);
            let arguments: Vec<_> = arguments.map(|(name, ty)| format!("{name}: {ty}")).collect();
            functions.insert(name.to_owned(), format!("({}){rust_result}", arguments.join(", ")));
        }
    }
    functions
}

fn functions_of_the_crate() -> BTreeMap<String, String> {
    let text = text("src/sys.rs").replace("( ", "(").replace(", )", ")");
    let declared = between(&text, "pub fn antientropy_", ";").map(|declared| {
        let (name, types) = declared.split_once('(').unwrap();
        (name.to_owned(), format!("({types}"))
    });
    declared.collect()
}

/// Returns the fields of each struct in the header, by its name.
fn structs_of_the_header() -> BTreeMap<String, Vec<(String, String)>> {
    let text = header();
    let bodies = text.split("struct antientropy_").skip(1).filter_map(|part| {
        let (name, body) = part.split_once(" {")?;
        let (body, _) = body.split_once('}')?;
        Some((name, body)).filter(|(name, _)| name.chars().all(|letter| letter.is_lowercase() || letter == '_'))
    });
    let fields = |body: &str| body.trim().split_terminator(';').map(field).collect();
    bodies.map(|(name, body)| (camel(name), fields(body))).collect()
}

/// Returns the fields of a struct in the source of the crate, which has the layout of C.
fn struct_of_the_crate(name: &str) -> Vec<(String, String)> {
    let text = text("src/sys.rs") + &text("src/values.rs");
    let declared = text.split_once(&format!("pub struct {name} {{"));
    let (before, after) = declared.unwrap_or_else(|| panic!("there is no struct {name}"));
    assert!(before.rsplit('}').next().unwrap().contains("#[repr(C)]"), "{name}");
    let (body, _) = after.split_once('}').unwrap();
    let fields = body.split(',').filter_map(|field| field.trim().strip_prefix("pub ")?.split_once(": "));
    fields.map(|(name, ty)| (name.to_owned(), ty.replace("Root", "u8"))).collect()
}

/// Returns the numbers of the header's enums and limits by their names.
fn numbers() -> BTreeMap<String, u64> {
    let text = header();
    let words = text.split_whitespace().collect::<Vec<_>>();
    let enums = words.windows(3).filter(|words| words[1] == "=").map(|words| (words[0], words[2]));
    let limits = words.windows(3).filter(|words| words[0] == "#define").map(|words| (words[1], words[2]));
    let named = enums.chain(limits).filter_map(|(name, number)| {
        let name = name.strip_prefix("ANTIENTROPY_")?;
        Some((name.to_owned(), number.trim_end_matches(',').parse().ok()?))
    });
    named.collect()
}

#[test]
fn functions() {
    let declared = functions_of_the_header();
    assert!(declared.len() > 50);
    assert_eq!(functions_of_the_crate(), declared);
}

#[test]
fn structs() {
    let structs = structs_of_the_header();
    assert!(structs.len() > 10);
    for (name, fields) in structs.into_iter().filter(|(name, _)| name != "Taken") {
        let is_handle = fields[0].0 == "at";
        let mut here = struct_of_the_crate(if is_handle { "Handle" } else { &name });
        if is_handle && name != "Hints" {
            here.truncate(2);
        }
        assert_eq!(here, fields, "{name}");
    }
}

#[test]
fn refusals_have_the_names_of_the_header() {
    let text = header();
    let causes = text.split_once("ANTIENTROPY_OK = 0,").unwrap().1.split_once('}').unwrap().0;
    let mut count = 0;
    for (name, number) in causes.split(',').filter_map(|cause| cause.split_once(" = ")) {
        let refusal = Refusal::from(number.trim().parse::<u32>().unwrap());
        let name = camel(name.trim().strip_prefix("ANTIENTROPY_").unwrap());
        assert_eq!((format!("{refusal:?}"), refusal.name()), (name.clone(), name));
        count += 1;
    }
    let all = (1..256).filter(|number| !matches!(Refusal::from(*number), Refusal::Other(_))).count();
    assert_eq!(count, all);
}

#[test]
fn enums() {
    let numbers = numbers();
    let kinds = [("LIVE", Kind::Live), ("TOMBSTONE", Kind::Tombstone)];
    kinds.iter().for_each(|(name, kind)| assert_eq!(numbers[*name], kind.number()));
    let sources = [("PUT", Source::Put), ("COPY", Source::Copy), ("HINT", Source::Hint), ("PARTNER", Source::Partner)];
    sources.iter().for_each(|(name, source)| assert_eq!(numbers[*name], source.number()));
    let orders = [("BEFORE", Order::Before), ("AFTER", Order::After), ("EQUAL", Order::Equal), ("APART", Order::Apart)];
    orders.iter().for_each(|(name, order)| assert_eq!(numbers[*name], order.number()));
}

#[test]
fn verdicts_and_reports() {
    let numbers = numbers();
    let members = |prefix: &'static str| {
        let named = numbers.iter().filter_map(move |(name, number)| Some((name.strip_prefix(prefix)?, *number)));
        named.map(|(name, number)| (camel(name), number)).collect::<Vec<_>>()
    };
    let (verdicts, reports) = (members("VERDICT_"), members("REPORT_"));
    assert_eq!((verdicts.len(), reports.len()), (6, 9));
    verdicts.iter().for_each(|(name, number)| assert_eq!(*name, format!("{:?}", VerdictKind::from(*number))));
    reports.iter().for_each(|(name, number)| assert_eq!(*name, format!("{:?}", Report::from(*number))));
}

/// A number of a newer library is kept, and no other member has it.
#[test]
fn numbers_of_a_newer_library() {
    for number in [9, 255, u64::MAX] {
        assert_eq!((Kind::from(number), Kind::Other(number).number()), (Kind::Other(number), number));
        assert_eq!((Source::from(number), Source::Other(number).number()), (Source::Other(number), number));
        assert_eq!(
            (VerdictKind::from(number), Report::from(number)),
            (VerdictKind::Other(number), Report::Other(number))
        );
        assert_eq!((Order::from(number), Order::Other(number).number()), (Order::Other(number), number));
    }
    assert_eq!(Source::from(3), Source::Partner);
}

#[test]
fn limits() {
    let numbers = numbers();
    for limit in ["CLOCK_MAX", "KEY_MAX"] {
        assert!(text("src/handle.rs").contains(&format!("{limit}: usize = {};", numbers[limit])));
    }
    assert!(text("src/values.rs").contains(&format!("Root = [u8; {}];", numbers["ROOT_LEN"])));
    assert!(text("src/sys.rs").contains(&format!("ASK_LEN: usize = {};", numbers["ASK_LEN"])));
    assert!(text("src/replica.rs").contains("limit: 1_000_000 }") && numbers["ENTRIES_MAX"] == 1_000_000);
    let leaves = format!("1 => Ok({}), 2 => Ok({}),", numbers["LEAVES_1"], numbers["LEAVES_2"]);
    assert!(text("src/checkpoint.rs").contains(&leaves));
}
