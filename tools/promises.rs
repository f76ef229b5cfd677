// The public functions of all crates, what each promises, and the must-fail edits of it.
//
//     promises list       a row of a table to each public function
//     promises check      what is wrong with the promises, a line to each; then how many there are
//
// Run in the root of the repository; tools/promises does that. No crate and no function is named here.
//
// A promise is what stands in the `ensures` clauses at the head of a function. Its definitions are the names in it that the file takes from
// `specs` or `proofs` of a crate. An edit is one of a public function if the text that it replaces stands in the function, or in a private
// function or a constant of the same crate that it uses, itself or through private ones. A conversion, an `impl` of From or of TryFrom, is a
// public function too: its promise is what it gives, and an enum that its head names is a constant that it uses.

use std::collections::BTreeSet;
use std::env;
use std::fs;
use std::path::Path;
use std::process::exit;

/// A function, a constant with what it is as its body, or an enum, which uses nothing.
struct Item {
    /// Of a conversion the head of its `impl`.
    name: String,
    constant: bool,
    /// The path of its source below the crate's folder, as in `src/lib.rt`.
    file: String,
    public: bool,
    /// From its first line to the line that closes its body.
    start: usize,
    end: usize,
    arguments: Vec<String>,
    requires: bool,
    /// What stands in each of its `ensures`.
    ensures: Vec<String>,
    body: String,
}

struct Crate {
    name: String,
    items: Vec<Item>,
    sources: Vec<(String, String)>,
    /// `crate::name` of the functions of other crates that it passes on.
    passed_on: Vec<String>,
}

fn read(file: &str) -> String {
    fs::read_to_string(file).unwrap_or_default()
}

/// The paths in a folder, sorted; none where there is no such folder.
fn files(folder: &str) -> Vec<String> {
    let entries = fs::read_dir(folder).into_iter().flatten().flatten();
    let mut files =
        entries.map(|entry| entry.path().to_string_lossy().into_owned()).collect::<Vec<_>>();
    files.sort();
    files
}

fn stem(file: &str) -> String {
    Path::new(file).file_stem().unwrap().to_string_lossy().into_owned()
}

fn is_word(c: char) -> bool {
    c.is_alphanumeric() || c == '_'
}

/// The front of a text that is a name.
fn front(text: &str) -> &str {
    &text[..text.find(|c| !is_word(c)).unwrap_or(text.len())]
}

// ---- Sources ----

/// The statements of a source that begin with a mark at the left margin, each with its place and, up to its `;`, what follows the mark.
fn statements<'a>(text: &'a str, mark: &str) -> Vec<(usize, &'a str)> {
    let mut statements = Vec::new();
    let mut at = 0;
    for line in text.split_inclusive('\n') {
        if line.starts_with(mark) {
            let rest = &text[at + mark.len()..];
            statements.push((at, &rest[..rest.find(';').unwrap_or(rest.len())]));
        }
        at += line.len();
    }
    statements
}

/// The items of a path, as `b` and `c` of `a::{b, c}`, each with what stands before it; of a path without braces its last part.
fn listed<'a>(path: &'a str, between: &str) -> Vec<(&'a str, &'a str)> {
    match path.split_once(&format!("{between}{{")) {
        Some((before, list)) => {
            let items = list.trim_end().trim_end_matches('}').split(',').map(str::trim);
            items.filter(|item| !item.is_empty()).map(|item| (before, item)).collect()
        }
        None => vec![path.rsplit_once(between).unwrap_or(("", path))],
    }
}

/// The places and paths of what a source takes from elsewhere, and whether it passes it on.
fn imports(text: &str) -> Vec<(usize, String, bool)> {
    let mut imports = Vec::new();
    for (mark, passed_on) in [("use ", false), ("pub use ", true)] {
        for (at, path) in statements(text, mark) {
            let path_of = |(before, item): (&str, &str)| match before {
                "" => item.to_string(),
                before => format!("{before}::{item}"),
            };
            imports
                .extend(listed(path, "::").into_iter().map(|item| (at, path_of(item), passed_on)));
        }
    }
    imports
}

/// Whether a name is that of a constant.
fn is_constant(name: &str) -> bool {
    name.chars().all(|c| c.is_uppercase() || c.is_numeric() || c == '_')
}

/// The name of a constant that a line declares.
fn constant(line: &str) -> Option<&str> {
    let line = line.strip_prefix("pub ").or(line.strip_prefix("pub(crate) ")).unwrap_or(line);
    let name = front(line.strip_prefix("const ").or(line.strip_prefix("static "))?);
    is_constant(name).then_some(name)
}

/// The name of an enum that a line declares.
fn enumeration(line: &str) -> Option<&str> {
    let line = line.strip_prefix("pub ").or(line.strip_prefix("pub(crate) ")).unwrap_or(line);
    line.strip_prefix("enum ").map(front)
}

/// The text between a bracket, the first of its kind in a text, and the one that closes it; none where there is no such bracket.
fn bracketed(text: &str, open: char, close: char) -> Option<&str> {
    let from = text.find(open)? + open.len_utf8();
    let mut depth = 1;
    for (at, c) in text[from..].char_indices() {
        depth += i32::from(c == open) - i32::from(c == close);
        if depth == 0 {
            return Some(&text[from..from + at]);
        }
    }
    Some(&text[from..])
}

/// What stands in the clauses of a kind at the head of a function: each on lines of its own, in braces, and before these its name, if it has one.
fn clauses(head: &str, kind: &str) -> Vec<String> {
    let mark = format!("\n    {kind}");
    let heads = head.match_indices(&mark).map(|(at, _)| &head[at + mark.len()..]);
    let own = heads.filter(|rest| !rest.starts_with(is_word));
    let texts = own.map(|rest| bracketed(rest, '{', '}').unwrap_or(rest));
    texts.map(|text| text.split_whitespace().collect::<Vec<_>>().join(" ")).collect()
}

/// What a conversion promises: in the `impl` of it, what stands in braces after `from_gives =` or `try_from_gives =`.
fn gives(conversion: &str) -> Vec<String> {
    let given = conversion.split_once("from_gives =").map(|(_, rest)| rest);
    let given = given.and_then(|rest| bracketed(rest, '{', '}'));
    given.map(|text| text.trim().to_string()).into_iter().collect()
}

/// The functions, constants and enums of a source: each begins at the left margin, or as a method in an `impl` that does; a function ends with the first `}`
/// below its first letter, as an enum does, a constant with `;`. A constant that is taken from elsewhere is where it is named.
fn items(file: &str, text: &str) -> Vec<Item> {
    let mut items = Vec::new();
    let mut at = 0;
    let mut of_impl = "";
    let taken = imports(text);
    let to_close = |start: usize, close: &str| {
        start + text[start..].find(close).map_or(text.len() - start, |n| n + close.len())
    };
    for line in text.split_inclusive('\n') {
        let start = at;
        at += line.len();
        if line.starts_with(is_word) {
            let in_impl = line.starts_with("impl");
            of_impl = if in_impl { &text[start..to_close(start, "\n}")] } else { "" };
        }
        let own = constant(line).or(enumeration(line)).map(str::to_string);
        let others = taken.iter().filter(|(place, _, _)| *place == start);
        let others = others.map(|(_, path, _)| path.rsplit("::").next().unwrap().to_string());
        for name in own.into_iter().chain(others.filter(|name| is_constant(name))) {
            let is_enum = enumeration(line).is_some();
            let end = to_close(start, if is_enum { "\n}" } else { ";\n" });
            items.push(Item {
                name,
                constant: true,
                file: file.to_string(),
                public: false,
                start,
                end,
                arguments: Vec::new(),
                requires: false,
                ensures: Vec::new(),
                body: if is_enum { String::new() } else { text[start..end].to_string() },
            });
        }
        let margin = if of_impl.is_empty() { "" } else { "    " };
        let declared = line.strip_prefix(margin).unwrap_or(line);
        let (public, rest) = match declared.strip_prefix("pub ") {
            Some(rest) => (true, rest),
            None => (false, declared.strip_prefix("pub(crate) ").unwrap_or(declared)),
        };
        let Some(rest) = rest.strip_prefix("extern \"C\" ").unwrap_or(rest).strip_prefix("fn ")
        else {
            continue;
        };
        let end = to_close(start, &format!("\n{margin}}}"));
        let whole = &text[start..end].replace(&format!("\n{margin}"), "\n");
        let parts = whole.split_once("\n{").or(whole.split_once(" {\n"));
        let (head, body) = parts.unwrap_or((whole, ""));
        let list = bracketed(head, '(', ')').unwrap_or("");
        let impl_head = of_impl.split(" {").next().unwrap();
        let marks = ["impl From<", "impl TryFrom<"];
        let conversion = marks.iter().any(|mark| impl_head.starts_with(mark));
        let (name, ensures, body) = match conversion {
            true => (impl_head, gives(of_impl), format!("{impl_head}\n{body}")),
            false => (front(rest), clauses(head, "ensures"), body.to_string()),
        };
        items.push(Item {
            name: name.to_string(),
            constant: false,
            file: file.to_string(),
            public: public || conversion,
            start,
            end,
            arguments: list
                .split(',')
                .filter_map(|part| part.split_once(':'))
                .map(|(name, _)| name.trim().trim_start_matches("mut ").to_string())
                .collect(),
            requires: !clauses(head, "requires").is_empty(),
            ensures,
            body,
        });
    }
    items
}

fn read_crates() -> Vec<Crate> {
    let names = read("crates.txt");
    // a static library has a word more before the colon
    let names = names.lines().filter_map(|line| line.split(':').next()?.split(' ').next());
    let names = names.collect::<Vec<_>>();
    let read_crate = |name: &&str| {
        let sources = files(&format!("crates/{name}/src"))
            .into_iter()
            .map(|path| (path[format!("crates/{name}/").len()..].to_string(), read(&path)))
            .collect::<Vec<_>>();
        let passed_on = sources.iter().flat_map(|(_, text)| imports(text));
        let passed_on = passed_on.filter(|import| import.2).filter_map(|(_, path, _)| {
            let (first, last) = (path.split("::").next()?, path.rsplit("::").next()?);
            names.contains(&first).then(|| format!("{first}::{last}"))
        });
        Crate {
            name: name.to_string(),
            items: sources.iter().flat_map(|(file, text)| items(file, text)).collect(),
            passed_on: passed_on.collect(),
            sources,
        }
    };
    names.iter().map(read_crate).collect()
}

/// What an item uses, each as a path (or nothing) and a name: functions that it calls or hands to a method as they are, constants and enums.
fn uses(item: &Item) -> Vec<(String, String)> {
    let mut uses = Vec::new();
    for line in item.body.lines().map(|line| line.split("//").next().unwrap()) {
        let parts = line.split_inclusive(|c| !is_word(c) && c != ':').collect::<Vec<_>>();
        for (k, part) in parts.iter().enumerate() {
            let path = part.trim_end_matches(|c| !is_word(c));
            let (before, name) = path.rsplit_once("::").unwrap_or(("", path));
            let call = part.ends_with('(') || part.ends_with("::<");
            // as `fault_of` in `found.map_err(fault_of)`; an argument of that name is no function
            let alone = k > 1 && parts[k - 2].ends_with('.') && parts[k - 1].ends_with('(');
            let alone = alone && part.ends_with(')');
            let handed_on = alone && item.arguments.iter().all(|argument| argument != path);
            let function = (call || handed_on) && name.starts_with(char::is_lowercase);
            if function || name.starts_with(char::is_uppercase) {
                uses.push((before.to_string(), name.to_string()));
            }
        }
    }
    uses
}

impl Crate {
    /// `crate::name` of a public function; with its module where the crate has two of the name. Of a conversion the crate, and the head of its `impl`.
    fn citation(&self, function: &Item) -> String {
        let same = self.items.iter().filter(|f| f.public && f.name == function.name).count();
        match same > 1 {
            _ if function.name.starts_with("impl ") => format!("{}: {}", self.name, function.name),
            true => format!("{}::{}::{}", self.name, stem(&function.file), function.name),
            false => format!("{}::{}", self.name, function.name),
        }
    }

    /// The function, constant or enum of this crate that `caller` means.
    fn meant(&self, caller: &Item, used: &(String, String)) -> Option<usize> {
        let (path, name) = used;
        let prefix = path.rsplit("::").next().unwrap();
        let module = |f: &Item| stem(&f.file);
        let fits = |f: &Item| {
            f.name == *name
                && match prefix {
                    "" | "crate" | "self" | "super" => true,
                    prefix => module(f) == prefix,
                }
        };
        let near = |f: &&Item| f.file == caller.file && prefix.is_empty();
        let found = self.items.iter().filter(|f| fits(f)).collect::<Vec<_>>();
        let best = found.iter().find(|f| near(f)).or(found.first())?;
        self.items.iter().position(|f| std::ptr::eq(f, *best))
    }

    /// A public function with the private ones, the constants and the enums that it uses, itself or through private ones.
    fn reach(&self, from: usize) -> Vec<usize> {
        let mut reached = vec![from];
        let mut k = 0;
        while k < reached.len() {
            let caller = &self.items[reached[k]];
            for name in uses(caller) {
                if let Some(n) = self.meant(caller, &name) {
                    if !self.items[n].public && !reached.contains(&n) {
                        reached.push(n);
                    }
                }
            }
            k += 1;
        }
        reached
    }
}

// ---- Promises ----

/// The names that a source, or an `impl` in it, takes from `specs` or `proofs` of a crate: the name as it is written there, and the citation.
fn taken(text: &str) -> Vec<(String, String)> {
    let mut taken = Vec::new();
    let text = text.replace("\n    ghost use ", "\nghost use ");
    for (_, path) in statements(&text, "ghost use Rattle.") {
        let parts = path.split_once(".specs.").or(path.split_once(".proofs."));
        let Some((name, rest)) = parts.filter(|(_, rest)| !rest.starts_with("declared.")) else {
            continue;
        };
        if rest.contains(".{") {
            for (file, item) in listed(rest, ".") {
                let (of, written) = item.split_once(" as ").unwrap_or((item, item));
                taken.push((written.to_string(), format!("{name}/{file}.{of}")));
            }
        } else if let Some((file, written)) = rest.split_once(" as ") {
            taken.push((format!("{written}."), format!("{name}/{file}.")));
        }
    }
    taken
}

/// The lines of `crates/crate/specs/File.antt`, or else of `crates/crate/proofs/File.antt`, that declare the name of a citation, and the
/// indented ones below.
fn declared(citation: &str) -> Vec<String> {
    let (name, rest) = citation.split_once('/').unwrap();
    let (file, item) = rest.split_once('.').unwrap();
    let lines = |folder| declared_in(&format!("crates/{name}/{folder}/{file}.antt"), item);
    Some(lines("specs")).filter(|lines| !lines.is_empty()).unwrap_or_else(|| lines("proofs"))
}

fn declared_in(file: &str, item: &str) -> Vec<String> {
    let text = read(file);
    let indent = |line: &str| line.len() - line.trim_start().len();
    let starts = |line: &&str| {
        let mut words = line
            .split_whitespace()
            .skip_while(|word| ["pub", "abbrev", "unfoldable", "record"].contains(word));
        let marked = ["pub ", "abbrev ", "unfoldable "]
            .iter()
            .any(|mark| line.trim_start().starts_with(mark));
        marked && words.next() == Some(item)
    };
    let mut lines = text.lines().skip_while(|line| !starts(line));
    let Some(first) = lines.next() else { return Vec::new() };
    let below = |line: &&str| {
        indent(line) > indent(first) || line.trim_start().starts_with(&format!("{item} "))
    };
    [first].into_iter().chain(lines.take_while(below)).map(str::to_string).collect()
}

/// The definitions that a clause names, in its order. A constructor is no definition, and a name after a dot is a field, unless a file's own
/// name stands before the dot.
fn named(text: &str, function: &Item, clause: &str) -> Vec<String> {
    let taken = taken(text);
    let mut found: Vec<String> = Vec::new();
    for word in clause.split(|c: char| !is_word(c) && c != '.' && c != '-') {
        let mut parts = word.split('.');
        let (first, field) = (parts.next().unwrap(), parts.next().unwrap_or(""));
        if function.arguments.iter().any(|name| name == first) {
            continue;
        }
        let citation =
            taken.iter().find_map(|(written, citation)| match written.strip_suffix('.') {
                Some(written) => (first == written).then(|| format!("{citation}{field}")),
                None => (first == written).then(|| citation.clone()),
            });
        let citation = citation.filter(|c| !found.contains(c) && !declared(c).is_empty());
        found.extend(citation);
    }
    found
}

/// The definitions that a promise names, in its order.
fn definitions(text: &str, function: &Item) -> Vec<String> {
    let mut found: Vec<String> = Vec::new();
    for name in function.ensures.iter().flat_map(|clause| named(text, function, clause)) {
        if !found.contains(&name) {
            found.push(name);
        }
    }
    found
}

/// Whether a clause states results as equal: it is an equation, or a record or product of equations, of claims that have a name, and of records of equations
/// that stand in the same file.
fn is_equation(text: &str, function: &Item, clause: &str) -> bool {
    if clause.contains(" ≡ ") {
        return !clause.contains(" ≤ ") && !clause.contains(" < ");
    }
    let named = named(text, function, clause);
    let Some((file, name)) = named.first().and_then(|citation| citation.split_once('.')) else {
        return false;
    };
    let is_stated = |line: &String| {
        let field = line.split_once(" : ").map_or("", |(_, of)| of);
        match field.split_once(' ') {
            _ if line.contains(" ≡ ") => true,
            Some((head, _)) => {
                let record = declared(&format!("{file}.{head}"));
                record.first().is_some_and(|line| line.contains("record "))
                    && has_parts(&record, |line| line.contains(" ≡ "))
            }
            None => !field.is_empty() && field.chars().all(is_word),
        }
    };
    has_parts(&declared(&format!("{file}.{name}")), is_stated)
}

/// Whether what is declared in some lines has parts, its fields or what it equals, and each is as asked.
fn has_parts(lines: &[String], asked: impl Fn(&String) -> bool) -> bool {
    let parts = lines.iter().skip(1).filter(|line| !line.trim_start().starts_with("--"));
    lines.len() > 1 && parts.into_iter().all(asked)
}

// ---- Edits ----

/// The edits of a crate, each with the functions in which the text that it replaces stands.
fn edits(of: &Crate) -> Vec<(String, BTreeSet<usize>)> {
    let mut edits = Vec::new();
    for path in files(&format!("crates/{}/must-fail", of.name)) {
        let mut places = BTreeSet::new();
        let mut file = String::new();
        for line in read(&path).lines() {
            if let Some(name) = line.strip_prefix("file: ") {
                file = name.to_string();
            }
            let Some(old) = line.strip_prefix("old: ") else { continue };
            let source = of.sources.iter().find(|(name, _)| *name == file);
            let Some(at) = source.and_then(|(_, text)| text.find(old)) else { continue };
            let inside = |f: &Item| f.file == file && f.start < at + old.len() && at < f.end;
            places.extend((0..of.items.len()).filter(|&k| inside(&of.items[k])));
        }
        edits.push((format!("{}!{}", of.name, stem(&path)), places));
    }
    edits
}

/// The public functions that some functions of a crate call, of any crate.
fn called(crates: &[Crate], of: &Crate, callers: &[usize]) -> Vec<String> {
    let mut called: Vec<String> = Vec::new();
    for caller in callers.iter().map(|&k| &of.items[k]).filter(|f| !f.constant) {
        for used in uses(caller) {
            let own = of.meant(caller, &used).map(|k| (of, &of.items[k]));
            let first = used.0.split("::").next().unwrap();
            let source = of.sources.iter().find(|(file, _)| *file == caller.file);
            let mut paths = source.into_iter().flat_map(|(_, text)| imports(text)).map(|x| x.1);
            let home = paths.find(|path| path.rsplit("::").next() == Some(first));
            let home = home.as_deref().map_or(first, |path| path.split("::").next().unwrap());
            let other = crates.iter().find(|other| other.name == home).and_then(|other| {
                Some((other, other.items.iter().find(|f| f.name == used.1 && f.public)?))
            });
            let Some((found, function)) = own.or(other).filter(|(_, f)| f.public) else { continue };
            let cited = found.citation(function);
            if !called.contains(&cited) {
                called.push(cited);
            }
        }
    }
    called
}

fn cited(names: &[String]) -> String {
    names.iter().map(|name| format!("`{name}`")).collect::<Vec<_>>().join(", ")
}

fn main() {
    let crates = read_crates();
    let list = env::args().nth(1).as_deref() == Some("list");
    let mut wrong = Vec::new();
    let (mut count, mut with_edit) = (0, 0);
    if list {
        println!("| Function | Definitions in its promise | Edits |\n|---|---|---|");
    }
    for of in &crates {
        let edits = edits(of);
        for k in (0..of.items.len()).filter(|&k| of.items[k].public) {
            let function = &of.items[k];
            let name = of.citation(function);
            let text = &of.sources.iter().find(|(file, _)| *file == function.file).unwrap().1;
            count += 1;
            if function.requires {
                wrong.push(format!("{name}: a public function with a requires"));
            }
            if function.ensures.is_empty() {
                wrong.push(format!("{name}: a public function without an ensures"));
            } else if !function.ensures.iter().all(|clause| is_equation(text, function, clause)) {
                wrong
                    .push(format!("{name}: its ensures is no equation and no record of equations"));
            }
            let reached = of.reach(k);
            let own = edits.iter().filter(|(_, places)| reached.iter().any(|n| places.contains(n)));
            let own = own.map(|(name, _)| name.clone()).collect::<Vec<_>>();
            with_edit += usize::from(!own.is_empty());
            if list {
                let mut names = vec![name.clone()];
                let passing = crates.iter().filter(|other| other.passed_on.contains(&name));
                names.extend(passing.map(|other| format!("{}::{}", other.name, function.name)));
                let mut definitions = cited(&definitions(text, function));
                if definitions.is_empty() {
                    definitions = cited(&function.ensures);
                }
                let calls = called(&crates, of, &reached);
                let edits = match (own.is_empty(), calls.is_empty()) {
                    (false, _) => cited(&own),
                    (true, false) => format!("of {}", cited(&calls)),
                    (true, true) => "none".to_string(),
                };
                println!("| {} | {definitions} | {edits} |", cited(&names));
            }
        }
    }
    if !list {
        wrong.iter().for_each(|line| println!("{line}"));
        println!("{count} public functions and conversions, {with_edit} with an edit of their own");
        exit(i32::from(!wrong.is_empty()))
    }
}
