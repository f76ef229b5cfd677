// What host/celltimber.h and host/celltimber.rs declare is what the crates export: each function
// with the name, the type and the place of every argument, and each number. Runs at the root of the
// repository.
//
//     declarations             compares, and prints a line to each difference
//     declarations CRATE       prints the names of the functions that CRATE exports
//
// It then damages a copy of each of the two texts in every way of `damages`, and compares each: one
// that is not refused is a mistake of this program. Exits with 1 if there is a difference or a mistake.

use std::collections::BTreeMap;
use std::fs;
use std::process::exit;

const HEADER: &str = "host/celltimber.h";
const RUST: &str = "host/celltimber.rs";

fn read(file: &str) -> String {
    fs::read_to_string(file).unwrap_or_else(|error| {
        println!("{file}: {error}");
        exit(1)
    })
}

/// What stands in `text` after `start` and before `end`.
fn between<'a>(text: &'a str, start: &str, end: &str) -> Option<&'a str> {
    let rest = &text[text.find(start)? + start.len()..];
    Some(&rest[..rest.find(end)?])
}

// ---- Functions ----

/// A function as C declares it: each argument and the result in the words of C, blanks apart.
#[derive(Clone, Debug, PartialEq)]
struct Function {
    arguments: Vec<String>,
    result: String,
}

/// Functions by their names.
type Functions = BTreeMap<String, Function>;

fn number_type(word: &str) -> &str {
    match word {
        "u16" => "uint16_t",
        "u64" => "uint64_t",
        "usize" => "size_t",
        other => other,
    }
}

/// The type as C has it: `const uint64_t *` for `&[u64]` of the crates and `*const u64` of Rust.
fn pointer_type(word: &str) -> Option<String> {
    let slice = word.strip_suffix(']').and_then(|word| {
        let read = word.strip_prefix("&[").map(|element| ("const ", element));
        read.or_else(|| word.strip_prefix("&mut [").map(|element| ("", element)))
    });
    let pointer = || word.strip_prefix("*const ").map(|element| ("const ", element));
    let (kept, element) =
        slice.or_else(pointer).or_else(|| word.strip_prefix("*mut ").map(|e| ("", e)))?;
    Some(format!("{kept}{} *", number_type(element)))
}

/// The parts of a list that commas part; a comma may end it.
fn parts(list: &str) -> Vec<String> {
    let blank = |part: &str| part.split_whitespace().collect::<Vec<_>>().join(" ");
    let parts = list.split(',').map(blank).collect::<Vec<_>>();
    parts.into_iter().filter(|part| !part.is_empty()).collect()
}

/// `name: type` of the crates or of Rust, as C has it. A slice of the crates is a pointer and a
/// length.
fn argument(part: &str) -> Vec<String> {
    let (name, kind) = part.split_once(": ").unwrap_or((part, ""));
    let first = match pointer_type(kind) {
        Some(pointer) => format!("{pointer}{name}"),
        None => format!("{} {name}", number_type(kind)),
    };
    match kind.starts_with('&') {
        true => vec![first, format!("size_t {name}_length")],
        false => vec![first],
    }
}

/// The functions after each `start` in a text of the crates or of Rust.
fn functions(text: &str, start: &str) -> Functions {
    let declared = text.split(start).skip(1).filter_map(|rest| {
        let (name, rest) = rest.split_once('(')?;
        let (list, rest) = rest.split_once(')')?;
        let result = rest.trim_start().strip_prefix("-> ").unwrap_or("void");
        let end = result.find(|c: char| !c.is_alphanumeric()).unwrap_or(result.len());
        let arguments = parts(list).iter().flat_map(|part| argument(part)).collect();
        Some((
            name.to_string(),
            Function { arguments, result: number_type(&result[..end]).to_string() },
        ))
    });
    declared.collect()
}

/// The functions that a crate exports.
fn exported(name: &str) -> Functions {
    let mut all = Functions::new();
    for file in fs::read_dir(format!("crates/{name}/src")).into_iter().flatten().flatten() {
        let path = file.path();
        let start = "#[unsafe(no_mangle)]\npub extern \"C\" fn ";
        all.extend(functions(&read(&path.to_string_lossy()), start));
    }
    all
}

/// A text of C without comments and without lines for the preprocessor.
fn plain(text: &str) -> String {
    let mut code = String::new();
    for (k, piece) in text.split("/*").enumerate() {
        code += if k == 0 { piece } else { piece.split_once("*/").map_or("", |(_, rest)| rest) };
    }
    code.lines().filter(|line| !line.starts_with('#')).map(|line| format!("{line}\n")).collect()
}

/// The functions that a header declares.
fn prototypes(header: &str) -> Functions {
    let code = plain(header).replace("extern \"C\" {", "");
    let mut all = Functions::new();
    for (head, list) in code.split(';').filter_map(|text| text.split_once('(')) {
        let mut words = head.split_whitespace().collect::<Vec<_>>();
        let name = words.pop().unwrap_or("").to_string();
        let arguments = parts(list.trim_end().trim_end_matches(')'));
        all.insert(name, Function { arguments, result: words.join(" ") });
    }
    all
}

// ---- Numbers ----

/// Numbers by their names.
type Numbers = BTreeMap<String, u64>;

fn value(text: &str) -> Option<u64> {
    let digits = text.trim().replace('_', "");
    match digits.as_str() {
        "UINT64MAX" | "u64::MAX" | "(2 ^ 64 - 1)" => Some(u64::MAX),
        _ => match digits.strip_prefix("0x") {
            Some(digits) => u64::from_str_radix(digits, 16).ok(),
            None => digits.parse().ok(),
        },
    }
}

/// The numbers that a header names, without `CELLTIMBER_`.
fn header_numbers(header: &str) -> Numbers {
    let defined = header.lines().filter_map(|line| {
        let (name, number) = line.strip_prefix("#define CELLTIMBER_")?.split_once(' ')?;
        Some((name.to_string(), value(number)?))
    });
    let code = plain(header).replace(['{', '}'], ",");
    let listed = code.split(',').filter_map(|part| {
        let (name, number) = part.trim().strip_prefix("CELLTIMBER_")?.split_once(" = ")?;
        Some((name.to_string(), value(number)?))
    });
    defined.chain(listed).collect()
}

/// The numbers that a text of the crates or of Rust names.
fn constants(text: &str) -> Numbers {
    let named = text.lines().filter_map(|line| {
        let line = line.strip_prefix("pub ").unwrap_or(line).strip_prefix("const ")?;
        let (name, rest) = line.split_once(": ")?;
        Some((name.to_string(), value(rest.split_once(" = ")?.1.trim_end_matches(';'))?))
    });
    named.collect()
}

/// `TableLength` as `TABLE_LENGTH`.
fn upper(name: &str) -> String {
    let mut upper = String::new();
    for (k, c) in name.chars().enumerate() {
        if k > 0 && c.is_uppercase() {
            upper.push('_');
        }
        upper.extend(c.to_uppercase());
    }
    upper
}

/// The clauses `function Case .. = number ..` of a definition: the number of each case, with a prefix
/// and a suffix to its name. A number may be a name that the file has as `name = number`.
fn clauses(file: &str, function: &str, prefix: &str, suffix: &str) -> Numbers {
    let text = read(file);
    let clauses = text.lines().filter_map(|line| {
        let (left, right) = line.strip_prefix(function)?.trim_start().split_once(" = ")?;
        let case = left.trim_start_matches('(').trim_end_matches(')').split(' ').next()?;
        let name = case.rsplit('.').next()?;
        let right = right.strip_prefix("record { name = ").unwrap_or(right);
        let number = right.strip_prefix("plain ").unwrap_or(right);
        let end = number.find([' ', ';']).filter(|_| !number.starts_with('('));
        let end = end.or(number.find(" ∷")).unwrap_or(number.len());
        let number = &number[..end];
        let named =
            || text.lines().find_map(|line| value(line.strip_prefix(number)?.strip_prefix(" = ")?));
        Some((format!("{prefix}{}{suffix}", upper(name)), value(number).or_else(named)?))
    });
    clauses.collect()
}

/// The numbers as the crates have them. The two bits of a stop word and the fence have no name there:
/// tests/host.c and tests/host.rs look at what a freeze, a clear and a fatal message leave.
fn defined(run: &Function) -> Numbers {
    const ANSWER: &str = "crates/kinds/specs/Answer.antt";
    const LAYOUT: &str = "crates/request_words/specs/Layout.antt";
    const OPERATIONS: &str = "crates/cache_words/specs/Operations.antt";
    let bits = [("MMIO_STOP", 1), ("DMA_STOP", 2), ("FENCE", 1)];
    let mut all = Numbers::from(bits.map(|(name, bit)| (name.to_string(), bit)));
    all.extend(clauses(LAYOUT, "encoded ", "", ""));
    all.extend(clauses(LAYOUT, "direction_number ", "", ""));
    all.extend(clauses(LAYOUT, "part_number ", "", "_BIT"));
    if let Some(number) = all.remove("RECORD_BIT") {
        all.insert("RECORD".to_string(), number);
    }
    // of the bridge with a cache: the kinds that it has beside those, and what an invalidate names
    all.extend(clauses(OPERATIONS, "encoded_operation ", "", ""));
    all.extend(clauses(OPERATIONS, "scope_words ", "SCOPE_", ""));
    all.extend(clauses(ANSWER, "numbered ", "", ""));
    all.extend(clauses(ANSWER, "reason_number ", "REASON_", ""));
    // the words of an answer, in their order
    let layout = read(LAYOUT);
    let words = between(&layout, "\nnumber_list x = ", "\n").unwrap_or("");
    for (k, word) in words.split(" ∷ ").enumerate() {
        if let Some(word) = word.strip_prefix("x.") {
            all.insert(format!("AT_{}", upper(word).to_uppercase()), k as u64);
        }
    }
    // the numbers of tables, by the order in which `celltimber_run` takes them
    let lengths = run.arguments.iter().filter_map(|argument| {
        argument.strip_prefix("size_t ")?.strip_suffix("_length").map(str::to_uppercase)
    });
    for (k, table) in lengths.take(8).enumerate() {
        all.insert(format!("TABLE_{table}"), k as u64);
    }
    for (name, number) in constants(&read("crates/isolation_tests/src/seen.rt")) {
        if all.get(&format!("TABLE_{name}")) != Some(&number) {
            all.remove(&format!("TABLE_{name}"));
        }
    }
    let layout = constants(&read("crates/request_lists/src/layout.rt"));
    let interrupts = constants(&read("crates/msi/src/interrupts.rt"));
    all.extend(layout);
    all.extend(interrupts.into_iter().filter(|(name, _)| ["P", "Q"].contains(&name.as_str())));
    if let Some(&number) = constants(&read("crates/kinds/src/number.rt")).get("NO_PE") {
        all.insert("NOBODY".to_string(), number);
    }
    // what a table holds, and not what an entry or an address may be
    let inner = ["MOST_TABLE_CODE", "CODE_BITS", "MOST_LEVELS", "OFFSET_BITS", "WORD_BYTES"];
    let limits = constants(&read("crates/profile/src/limits.rt"));
    all.extend(limits.into_iter().filter(|(name, _)| !inner.contains(&name.as_str())));
    let cache = constants(&read("crates/cache/src/limits.rt"));
    let outer = ["CACHE_WORDS", "SLOT_WORDS"];
    all.extend(cache.into_iter().filter(|(name, _)| outer.contains(&name.as_str())));
    all
}

// ---- Comparing ----

/// The differences of what a text declares from what the crates have.
fn differences(file: &str, text: &str, wanted: &(Functions, Numbers)) -> Vec<String> {
    let (functions, numbers) = match file {
        HEADER => (prototypes(text), header_numbers(text)),
        _ => (functions(text, "    fn "), constants(text)),
    };
    let mut told = Vec::new();
    let names = functions.keys().chain(wanted.0.keys().filter(|k| !functions.contains_key(*k)));
    for name in names {
        match (functions.get(name), wanted.0.get(name)) {
            (Some(given), Some(wanted)) if given == wanted => {}
            (Some(given), Some(wanted)) => {
                let given = [&given.arguments[..], &[given.result.clone()]].concat();
                let wanted = [&wanted.arguments[..], &[wanted.result.clone()]].concat();
                let at = (0..).find(|&k| given.get(k) != wanted.get(k)).unwrap_or(0);
                let [given, wanted] =
                    [given, wanted].map(|list| list.get(at).cloned().unwrap_or_default());
                told.push(format!(
                    "{file}: {name}, argument {}: '{given}', and the crates have '{wanted}'",
                    at + 1
                ));
            }
            (None, _) => told.push(format!("{file}: {name} is not declared")),
            (_, None) => told.push(format!("{file}: {name} is in no crate")),
        }
    }
    let names = numbers.keys().chain(wanted.1.keys().filter(|k| !numbers.contains_key(*k)));
    for name in names {
        let (given, wanted) = (numbers.get(name), wanted.1.get(name));
        if given != wanted {
            let [given, wanted] =
                [given, wanted].map(|x| x.map_or("no number".to_string(), u64::to_string));
            told.push(format!("{file}: {name} is {given}, and the crates have {wanted}"));
        }
    }
    told
}

/// A text with one thing wrong, and what it is: two neighbouring arguments exchanged, an argument
/// left out, another type of an argument, a number one too large.
fn damages(text: &str, names: &Functions) -> Vec<(String, String)> {
    let mut all = Vec::new();
    for name in names.keys() {
        let start = text.find(&format!(" {name}(")).map_or(0, |at| at + name.len() + 2);
        let end = start + text[start..].find(')').unwrap_or(0);
        let list = text[start..end].split(',').collect::<Vec<_>>();
        let list = list.into_iter().filter(|part| !part.trim().is_empty()).collect::<Vec<_>>();
        let mut put = |what: String, list: Vec<String>| {
            all.push((what, format!("{}{}{}", &text[..start], list.join(","), &text[end..])));
        };
        let owned = || list.iter().map(|part| part.to_string()).collect::<Vec<_>>();
        for k in 0..list.len() {
            let mut fewer = owned();
            fewer.remove(k);
            put(format!("{name} without argument {}", k + 1), fewer);
            if k + 1 < list.len() {
                let mut swapped = owned();
                swapped.swap(k, k + 1);
                put(format!("{name} with arguments {} and {} exchanged", k + 1, k + 2), swapped);
            }
            let types = [
                ("const ", ""),
                ("*const ", "*mut "),
                ("*mut ", "*const "),
                ("uint64_t", "uint32_t"),
                ("uint16_t", "uint64_t"),
                ("size_t", "uint64_t"),
                ("u64", "u32"),
                ("u16", "u64"),
                ("usize", "u64"),
            ];
            for (from, to) in types.iter().filter(|(from, _)| list[k].contains(from)) {
                let mut other = owned();
                other[k] = list[k].replacen(from, to, 1);
                put(format!("{name} with '{to}' for '{from}' in argument {}", k + 1), other);
            }
        }
    }
    let lines = text.lines().collect::<Vec<_>>();
    for k in 0..lines.len() {
        let Some((left, right)) = lines[k].split_once(" = ") else { continue };
        let named =
            ["CELLTIMBER_", "pub const "].iter().any(|start| left.trim().starts_with(start));
        let digits = right.chars().take_while(|c| c.is_ascii_digit() || *c == '_').count();
        let Some(number) = value(&right[..digits]).filter(|_| named) else { continue };
        let line = format!("{left} = {}{}", number + 1, &right[digits..]);
        let text = lines.iter().enumerate().map(|(i, old)| if i == k { &line } else { *old });
        all.push((line.clone(), text.map(|line| format!("{line}\n")).collect()));
    }
    all
}

fn main() {
    if let Some(name) = std::env::args().nth(1) {
        exported(&name).keys().for_each(|name| println!("{name}"));
        return;
    }
    let crates = read("crates.txt");
    let mut functions = Functions::new();
    for name in crates.lines().filter_map(|line| line.split([':', ' ']).next()) {
        functions.extend(exported(name));
    }
    let Some(run) = functions.get("celltimber_run") else {
        println!("no crate exports celltimber_run");
        exit(1)
    };
    let numbers = defined(run);
    let wanted = (functions, numbers);
    let mut told = Vec::new();
    let mut refused = 0;
    for file in [HEADER, RUST] {
        let text = read(file);
        let found = differences(file, &text, &wanted);
        let whole = found.is_empty();
        told.extend(found);
        for (what, damaged) in damages(&text, &wanted.0).into_iter().filter(|_| whole) {
            match differences(file, &damaged, &wanted).is_empty() {
                true => told.push(format!("{file} is taken also when damaged: {what}")),
                false => refused += 1,
            }
        }
    }
    told.iter().for_each(|line| println!("{line}"));
    println!(
        "{} functions and {} numbers compared, {} differences; {refused} damaged texts refused",
        wanted.0.len(),
        wanted.1.len(),
        told.len()
    );
    exit(i32::from(!told.is_empty()))
}
