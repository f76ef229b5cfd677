// What the documents cite is there, and docs/ACCEPTANCE.md cites what it has to. Runs at the root of the repository.
// Prints a line to each mistake; exits with 1 if there is one.
//
// A citation stands between backquotes:
//     `crate/File.name`       a name that crates/crate/specs/File.antt or crates/crate/proofs/File.antt declares
//     `crate::name`           a function of the crate, or one that it passes on; `crate::module::name`: of that module
//     `crate!edit`            crates/crate/must-fail/edit.edit
//     `folder/file`           a file or folder, or a command that begins with one; * is any crate
//     FILE, `a`, `b` and `c`  names that FILE declares; also `a` of FILE, `a` in FILE, `a` (FILE), and `a` there: of the file named last
// docs/ACCEPTANCE.md cites each must-fail edit.
// docs/CONFORMANCE.md has one of three verdicts in each row, cites a name where the verdict is 'proved here', and counts them at its head.

use std::fs;
use std::path::Path;
use std::process::exit;

const ACCEPTANCE: &str = "docs/ACCEPTANCE.md";
const CONFORMANCE: &str = "docs/CONFORMANCE.md";
const VERDICTS: [&str; 3] = ["proved here", "stricter in the profile", "not in the profile"];

fn read(file: &str) -> String {
    fs::read_to_string(file).unwrap_or_default()
}

/// The paths in a folder, sorted; none where there is no such folder.
fn files(folder: &str) -> Vec<String> {
    let entries = fs::read_dir(folder).into_iter().flatten().flatten();
    let mut files =
        entries.map(|entry| entry.path().to_string_lossy().into_owned()).collect::<Vec<_>>();
    files.sort();
    files
}

fn stem(file: &str) -> String {
    Path::new(file).file_stem().unwrap().to_string_lossy().into_owned()
}

// ---- Documents ----

/// A text between backquotes, its line, and what follows it up to the next.
struct Span {
    line: usize,
    text: String,
    after: String,
}

/// The spans of a text, with a line break as a blank. What stands between lines of ``` is left out.
fn spans(text: &str) -> Vec<Span> {
    let mut fenced = false;
    let mut lines = Vec::new();
    for line in text.lines() {
        let fence = line.starts_with("```");
        lines.push(if fenced || fence { "" } else { line.trim_start() });
        fenced ^= fence;
    }
    let text = lines.join("\n");
    let pieces = text.split('`').collect::<Vec<_>>();
    let mut spans = Vec::new();
    for k in (1..pieces.len()).step_by(2) {
        let line = 1 + pieces[..k].iter().map(|piece| piece.matches('\n').count()).sum::<usize>();
        let after = pieces.get(k + 1).unwrap_or(&"").replace('\n', " ");
        spans.push(Span { line, text: pieces[k].replace('\n', " "), after });
    }
    spans
}

/// The targets of links and pictures, as paths from the root.
fn links(document: &str, text: &str) -> Vec<String> {
    let folder = Path::new(document).parent().unwrap();
    let targets = text.split("](").skip(1).filter_map(|rest| rest.split(')').next());
    let own = targets.filter(|target| !target.contains("://"));
    own.map(|target| folder.join(target).to_string_lossy().into_owned()).collect()
}

// ---- Sources ----

struct Item<'a> {
    kind: &'a str,
    name: &'a str,
}

/// The items that a line of a program declares outside all blocks. `pub use` has the names that it passes on.
fn items(line: &str) -> Vec<Item<'_>> {
    if let Some(path) = line.strip_prefix("pub use ") {
        let list = path.trim_end_matches(';').trim_end_matches('}');
        let paths = list.split_once('{').map_or(list, |(_, paths)| paths).split(',');
        let names = paths.filter_map(|path| path.trim().rsplit("::").next());
        return names.map(|name| Item { kind: "use", name }).collect();
    }
    item(line).into_iter().collect()
}

fn item(line: &str) -> Option<Item<'_>> {
    let line = line.strip_prefix("pub ").or(line.strip_prefix("pub(crate) ")).unwrap_or(line);
    let (kind, rest) = line.strip_prefix("extern \"C\" ").unwrap_or(line).split_once(' ')?;
    let end = rest.find(|c: char| !c.is_alphanumeric() && c != '_').unwrap_or(rest.len());
    let kinds = ["fn", "struct", "enum", "const", "static", "type"];
    kinds.contains(&kind).then_some(Item { kind, name: &rest[..end] })
}

/// The name that a line of definitions or laws declares: a record or its field, a type or its constructor, a function, a law, a set of rules.
fn definition(line: &str) -> Option<&str> {
    let mut words =
        line.split_whitespace().skip_while(|word| ["pub", "abbrev", "unfoldable"].contains(word));
    match words.next()? {
        "record" | "data" | "ruleset" => words.next(),
        name => (words.next()? == ":").then_some(name),
    }
}

fn declares(file: &str, name: &str) -> bool {
    read(file).lines().any(|line| match file.ends_with(".rt") {
        true => item(line).is_some_and(|item| item.name == name),
        false => definition(line) == Some(name),
    })
}

/// The lines of a program, those in an `impl` without their margin.
fn declarations(text: &str) -> Vec<&str> {
    let mut in_impl = false;
    let mut lines = Vec::new();
    for line in text.lines() {
        if line.starts_with(char::is_alphabetic) {
            in_impl = line.starts_with("impl");
        }
        let margin = if in_impl { "    " } else { "" };
        lines.push(line.strip_prefix(margin).unwrap_or(line));
    }
    lines
}

/// Whether a crate, or one module of it, has a function or a method of this name or passes one on.
fn has_function(path: &str) -> bool {
    let parts = path.split("::").collect::<Vec<_>>();
    let found = |file: &String| {
        (parts.len() < 3 || stem(file) == parts[1])
            && declarations(&read(file)).into_iter().flat_map(items).any(|item| {
                ["fn", "use"].contains(&item.kind) && item.name == parts[parts.len() - 1]
            })
    };
    files(&format!("crates/{}/src", parts[0])).iter().any(found)
}

// ---- Citations ----

fn is_source(text: &str) -> bool {
    text.starts_with("crates/") && (text.ends_with(".antt") || text.ends_with(".rt"))
}

fn is_name(text: &str) -> bool {
    text.starts_with(char::is_alphabetic)
        && text.chars().all(|c| c.is_alphanumeric() || c == '-' || c == '_')
}

/// Whether a citation that names its place is there. None: the text names no place.
fn stands(text: &str, crates: &[String]) -> Option<bool> {
    let word = text.split(' ').next()?;
    if word.contains('/') {
        let (first, rest) = word.split_once('/')?;
        if crates.iter().any(|name| name == first) {
            let (file, name) = rest.split_once('.').unwrap_or((rest, ""));
            let declares = |folder| declares(&format!("crates/{first}/{folder}/{file}.antt"), name);
            return Some(["specs", "proofs"].into_iter().any(declares));
        }
        let built = first == "target";
        return Some(
            built || crates.iter().any(|name| Path::new(&word.replace('*', name)).exists()),
        );
    }
    if word != text {
        return None;
    }
    if let Some((name, edit)) = text.split_once('!') {
        return Some(Path::new(&format!("crates/{name}/must-fail/{edit}.edit")).exists());
    }
    text.contains("::").then(|| has_function(text))
}

/// The names of a list, each with the source that the text says it is in.
fn listed(spans: &[Span]) -> Vec<(&Span, &str)> {
    let mut listed = Vec::new();
    let mut last = "";
    let mut k = 0;
    while k < spans.len() {
        let mut end = k;
        while end < spans.len() && is_name(&spans[end].text) {
            end += 1;
            if ![", ", " and ", ", and "].contains(&&*spans[end - 1].after) {
                break;
            }
        }
        if end == k {
            last = if is_source(&spans[k].text) { &spans[k].text } else { last };
            k += 1;
            continue;
        }
        let after = &*spans[end - 1].after;
        let next = spans.get(end).map_or("", |span| &*span.text);
        let source = if k > 0 && is_source(&spans[k - 1].text) && spans[k - 1].after == ", " {
            last
        } else if [" of ", " in ", " ("].contains(&after) && is_source(next) {
            next
        } else if after.starts_with(" there") {
            last
        } else {
            ""
        };
        listed
            .extend(spans[k..end].iter().filter(|_| !source.is_empty()).map(|span| (span, source)));
        k = end;
    }
    listed
}

// ---- Verdicts ----

/// What is wrong with the rows of docs/CONFORMANCE.md, and with their counts at its head.
fn verdict_mistakes(text: &str) -> Vec<String> {
    let mut mistakes = Vec::new();
    let mut counts = [0; VERDICTS.len()];
    for line in text.lines().filter(|line| line.starts_with("| R1-")) {
        let cells = line.split(" | ").collect::<Vec<_>>();
        let item = cells[0].trim_start_matches("| ");
        let given = cells.get(2).map(|cell| cell.trim_matches('*'));
        match VERDICTS.iter().position(|verdict| given == Some(verdict)) {
            Some(k) => counts[k] += 1,
            None => mistakes.push(format!("{CONFORMANCE}: no verdict in the row of {item}")),
        }
        if given == Some(VERDICTS[0]) && !cells.get(3).is_some_and(|cell| cell.contains('`')) {
            mistakes.push(format!("{CONFORMANCE}: no name in the row of {item}"));
        }
    }
    for (verdict, count) in VERDICTS.iter().zip(counts) {
        if !text.contains(&format!("**{verdict}** ({count} rows)")) {
            mistakes.push(format!("{CONFORMANCE}: its head has not '{verdict}' ({count} rows)"));
        }
    }
    mistakes
}

fn main() {
    let crates = read("crates.txt")
        .lines()
        .filter_map(|line| line.split(':').next()?.split(' ').next().map(str::to_string))
        .collect::<Vec<_>>();
    let mut mistakes = Vec::new();
    let mut count = 0;

    let root = ["README.md", "CONTRIBUTING.md", "CHANGELOG.md"].map(str::to_string);
    let documents = files("docs").into_iter().filter(|file| file.ends_with(".md"));
    for document in root.into_iter().chain(documents) {
        let text = read(&document);
        if text.matches('`').count() % 2 == 1 {
            mistakes.push(format!("{document}: a backquote is not closed"));
        }
        let spans = spans(&text);
        for span in &spans {
            count += usize::from(stands(&span.text, &crates).is_some());
            if stands(&span.text, &crates) == Some(false) {
                mistakes.push(format!("{document}:{}: there is no {}", span.line, span.text));
            }
        }
        for (span, source) in listed(&spans) {
            count += 1;
            if !declares(source, &span.text) {
                mistakes.push(format!(
                    "{document}:{}: {source} does not declare {}",
                    span.line, span.text
                ));
            }
        }
        let missing =
            links(&document, &text).into_iter().filter(|target| !Path::new(target).exists());
        mistakes.extend(
            missing.map(|target| format!("{document}: a link to {target}, which is not there")),
        );
    }

    mistakes.extend(verdict_mistakes(&read(CONFORMANCE)));

    let acceptance = read(ACCEPTANCE);
    for name in &crates {
        for edit in files(&format!("crates/{name}/must-fail")) {
            let edit = format!("{name}!{}", stem(&edit));
            if !acceptance.contains(&format!("`{edit}`")) {
                mistakes.push(format!("{ACCEPTANCE}: the edit {edit} is not cited"));
            }
        }
    }

    mistakes.iter().for_each(|mistake| println!("{mistake}"));
    println!("{count} citations");
    exit(i32::from(!mistakes.is_empty()))
}
