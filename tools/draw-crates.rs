// The crates of this repository, drawn and listed from crates.txt and the files.
//
//     draw-crates svg      the figure: a band to each family; a crate stands above those that it uses
//     draw-crates list     a line to each crate: its family, its name, the first sentence of its
//                          source, what it is over
//
// Run in the root of the repository; tools/draw-crates does that. A use that others imply is left
// out. Exits with 1 if a crate belongs to no family.

use std::cmp::Ordering;
use std::collections::{BTreeMap, BTreeSet, HashMap};
use std::env;
use std::fs;
use std::ops::Range;
use std::path::Path;
use std::process::exit;

/// The families, from left to right in the figure: the crates of each, a * for the rest of a name.
/// A name in full goes before one with a *.
const FAMILIES: [(&str, &str); 11] = [
    ("values and definition", "kinds outcomes profile isolation history"),
    ("tables", "table*"),
    ("DMA", "dma*"),
    ("translation cache", "edits cache*"),
    ("MSI and firmware", "msi* firmware*"),
    ("requests and answers", "owners decide handle request_* bridge bridge_c"),
    ("loads and stores", "mmio*"),
    ("endpoints and freeze", "endpoints freeze fence"),
    ("premises of isolation", "isolation_*"),
    ("text", "replay_text text_*"),
    ("replay", "replay_*"),
];

struct Crate {
    name: String,
    family: usize,
    /// The crates that it uses, without those that others imply.
    uses: Vec<usize>,
    sentence: String,
    program: bool,
    /// A static library, which C and Rust link.
    library: bool,
}

// ---- Reading ----

/// The family of a crate, by its name.
fn family(name: &str) -> Option<usize> {
    let has = |test: &dyn Fn(&str) -> bool| {
        FAMILIES.iter().position(|(_, names)| names.split(' ').any(test))
    };
    let begins =
        |pattern: &str| pattern.strip_suffix('*').is_some_and(|head| name.starts_with(head));
    has(&|pattern| pattern == name).or_else(|| has(&begins))
}

fn read_crates() -> Vec<Crate> {
    let text = fs::read_to_string("crates.txt").expect("crates.txt");
    // before the colon the name of a crate, and what it is if it is more than a library or a program
    let rows: Vec<(&str, Vec<&str>, Vec<&str>)> = text
        .lines()
        .map(|line| line.split('#').next().unwrap_or(""))
        .filter_map(|line| line.split_once(':'))
        .map(|(head, uses)| {
            let mut words = head.split_whitespace();
            (words.next().unwrap_or(""), words.collect(), uses.split_whitespace().collect())
        })
        .collect();
    let strays: Vec<&str> =
        rows.iter().map(|row| row.0).filter(|name| family(name).is_none()).collect();
    if !strays.is_empty() {
        eprintln!(
            "of no family: {}; name it in FAMILIES of tools/draw-crates.rs",
            strays.join(", ")
        );
        exit(1);
    }
    let places: HashMap<&str, usize> =
        rows.iter().enumerate().map(|(place, (name, _, _))| (*name, place)).collect();
    // a library of the toolchain is no crate of this repository
    let uses: Vec<Vec<usize>> = rows
        .iter()
        .map(|(_, _, uses)| uses.iter().filter_map(|name| places.get(name)).copied().collect())
        .collect();
    rows.iter()
        .enumerate()
        .map(|(place, (name, kinds, _))| {
            let folder = Path::new("crates").join(name);
            let main = folder.join("src/main.rt");
            let program = main.exists();
            let source = if program { main } else { folder.join("src/lib.rt") };
            let source = fs::read_to_string(&source)
                .unwrap_or_else(|error| panic!("{}: {error}", source.display()));
            Crate {
                name: name.to_string(),
                family: family(name).unwrap_or(0),
                uses: direct(&uses, place),
                sentence: sentence(&source),
                program,
                library: kinds.contains(&"staticlib"),
            }
        })
        .collect()
}

/// What a crate uses and none of the others that it uses does.
fn direct(uses: &[Vec<usize>], place: usize) -> Vec<usize> {
    let implied = |used: usize| uses[place].iter().any(|&other| reaches(uses, other, used));
    uses[place].iter().copied().filter(|&used| !implied(used)).collect()
}

/// Whether a crate uses another, itself not counted.
fn reaches(uses: &[Vec<usize>], from: usize, to: usize) -> bool {
    uses[from].iter().any(|&used| used == to || reaches(uses, used, to))
}

/// The first sentence of the comment at the head of a source.
fn sentence(source: &str) -> String {
    let comment: Vec<&str> =
        source.lines().map_while(|line| line.strip_prefix("//")).map(str::trim).collect();
    let comment = comment.join(" ");
    match comment.split_once(". ") {
        Some((first, _)) => first.to_string(),
        None => comment.trim_end_matches('.').to_string(),
    }
}

// ---- Rows ----

/// A row to each crate, counted from below: above all that it uses, in no other's place of its
/// band, and with short lines.
fn rows(crates: &[Crate]) -> Vec<usize> {
    let count = crates.len();
    let mut depth = vec![0; count];
    for _ in 0..count {
        for (place, item) in crates.iter().enumerate() {
            depth[place] = item.uses.iter().map(|&used| depth[used] + 1).max().unwrap_or(0);
        }
    }
    let mut order: Vec<usize> = (0..count).collect();
    order.sort_by_key(|&place| depth[place]);
    let mut row = vec![0; count];
    let mut taken = BTreeSet::new();
    for &place in &order {
        row[place] = crates[place].uses.iter().map(|&used| row[used] + 1).max().unwrap_or(0);
        while !taken.insert((crates[place].family, row[place])) {
            row[place] += 1;
        }
    }
    for _ in 0..count {
        for place in 0..count {
            let (item, now) = (&crates[place], row[place]);
            let users: Vec<usize> =
                (0..count).filter(|&user| crates[user].uses.contains(&place)).collect();
            let low = item.uses.iter().map(|&used| row[used] + 1).max().unwrap_or(0);
            let high = users.iter().map(|&user| row[user] - 1).min().unwrap_or(now);
            let cost = |at: usize| {
                let down: usize = item.uses.iter().map(|&used| at - row[used]).sum();
                let up: usize = users.iter().map(|&user| row[user] - at).sum();
                (down + up, at)
            };
            let free = |at: &usize| *at == now || !taken.contains(&(item.family, *at));
            let best = (low..=high).filter(free).min_by_key(|&at| cost(at)).unwrap_or(now);
            taken.remove(&(item.family, now));
            taken.insert((item.family, best));
            row[place] = best;
        }
    }
    row
}

// ---- Lines ----

/// What a character of a name takes of a box, and the least width of a band's boxes.
const CHARACTER: f64 = 8.4;
const LEAST_WIDTH: f64 = 92.0;
const BOX_HEIGHT: f64 = 30.0;
/// Beside the boxes of a band, and between two bands.
const PADDING: f64 = 8.0;
const BETWEEN: f64 = 10.0;
const MARGIN: f64 = 16.0;
const TITLE_HEIGHT: f64 = 58.0;
const LEGEND_HEIGHT: f64 = 46.0;
/// Between two lines that run beside each other.
const TRACK: f64 = 8.0;
/// Between a box and the nearest line below or above it.
const CLEAR: f64 = 13.0;
const CORNER: f64 = 5.0;

/// All lines to one crate. They join in a trunk that goes down to it.
struct Net {
    used: usize,
    users: Vec<usize>,
    /// The rows that the trunk passes: from the one above the crate up to the last below a user.
    passed: Range<usize>,
    /// None: the trunk is in the middle of the crate's band, where no box is in its way; else its
    /// place among the trunks at the left side of the band.
    slot: Option<usize>,
}

fn nets(crates: &[Crate], row: &[usize]) -> Vec<Net> {
    let mut nets: Vec<Net> = Vec::new();
    for used in 0..crates.len() {
        let users: Vec<usize> =
            (0..crates.len()).filter(|&user| crates[user].uses.contains(&used)).collect();
        let Some(top) = users.iter().map(|&user| row[user]).max() else { continue };
        let passed = row[used] + 1..top;
        let band = crates[used].family;
        let blocked = (0..crates.len())
            .any(|other| crates[other].family == band && passed.contains(&row[other]));
        let slot = blocked.then(|| {
            let taken: BTreeSet<usize> = nets
                .iter()
                .filter(|net| crates[net.used].family == band)
                .filter(|net| net.passed.start <= passed.end && passed.start <= net.passed.end)
                .filter_map(|net| net.slot)
                .collect();
            (0..).find(|slot| !taken.contains(slot)).unwrap_or(0)
        });
        nets.push(Net { used, users, passed, slot });
    }
    nets
}

/// The bands from left to right: the middle of the boxes, their width, and the edges of the band.
struct Band {
    middle: f64,
    width: f64,
    left: f64,
    right: f64,
}

fn bands(crates: &[Crate], nets: &[Net]) -> Vec<Band> {
    let mut x = MARGIN;
    (0..FAMILIES.len())
        .map(|band| {
            let longest = crates
                .iter()
                .filter(|item| item.family == band)
                .map(|item| item.name.len())
                .max()
                .unwrap_or(0);
            let trunks = nets
                .iter()
                .filter(|net| crates[net.used].family == band)
                .filter_map(|net| net.slot)
                .map(|slot| slot + 1)
                .max()
                .unwrap_or(0);
            let width = (longest as f64 * CHARACTER + 22.0).max(LEAST_WIDTH).round();
            let left = x;
            let boxes = left + PADDING + trunks as f64 * TRACK;
            let right = boxes + width + PADDING;
            x = right + BETWEEN;
            Band { middle: boxes + width / 2.0, width, left, right }
        })
        .collect()
}

/// Where each line leaves its user: those to the left from the left half, those to the right from
/// the right half, and one to its own band from the middle.
fn ports(
    crates: &[Crate],
    row: &[usize],
    nets: &[Net],
    bands: &[Band],
) -> HashMap<(usize, usize), f64> {
    let mut ports = HashMap::new();
    for user in 0..crates.len() {
        let middle = bands[crates[user].family].middle;
        let mut left = Vec::new();
        let mut right = Vec::new();
        for (k, net) in nets.iter().enumerate().filter(|(_, net)| net.users.contains(&user)) {
            let next = row[user] == row[net.used] + 1;
            let to = if next {
                bands[crates[net.used].family].middle
            } else {
                trunk(crates, net, bands)
            };
            match to.total_cmp(&middle) {
                Ordering::Less => left.push((to, k)),
                Ordering::Equal => drop(ports.insert((user, k), middle)),
                Ordering::Greater => right.push((to, k)),
            }
        }
        left.sort_by(|a, b| b.0.total_cmp(&a.0));
        right.sort_by(|a, b| a.0.total_cmp(&b.0));
        for (sign, side) in [(-1.0, left), (1.0, right)] {
            for (place, (_, k)) in side.iter().enumerate() {
                ports.insert((user, *k), middle + sign * (place + 1) as f64 * TRACK);
            }
        }
    }
    ports
}

fn trunk(crates: &[Crate], net: &Net, bands: &[Band]) -> f64 {
    let band = &bands[crates[net.used].family];
    match net.slot {
        None => band.middle,
        Some(slot) => band.left + PADDING / 2.0 + slot as f64 * TRACK + TRACK / 2.0,
    }
}

/// A line's stretch to the side, in the gap above a row: from the least to the greatest x.
struct Stretch {
    net: usize,
    from: f64,
    to: f64,
}

/// The stretches of each gap, in tracks that no two share where they meet.
fn tracks(stretches: &mut [Stretch]) -> (HashMap<usize, usize>, usize) {
    stretches.sort_by(|a, b| a.from.total_cmp(&b.from));
    let mut ends: Vec<f64> = Vec::new();
    let mut track = HashMap::new();
    for stretch in stretches.iter() {
        let free = ends.iter().position(|&end| end + TRACK <= stretch.from);
        let place = free.unwrap_or_else(|| {
            ends.push(0.0);
            ends.len() - 1
        });
        ends[place] = stretch.to;
        track.insert(stretch.net, place);
    }
    (track, ends.len())
}

// ---- Drawing ----

const STYLE: &str = "
  text { font-family: system-ui, -apple-system, 'Segoe UI', 'DejaVu Sans', sans-serif; text-anchor: middle; fill: #1f2328; }
  .paper { fill: #ffffff; }
  .name { font-size: 13px; font-weight: 600; }
  .family { font-size: 13px; fill: #424a53; }
  .legend { font-size: 12px; fill: #59636e; }
  .box { fill: #ffffff; stroke-width: 1.2; }
  .program { stroke-width: 3; }
  .library { stroke-width: 2; stroke-dasharray: 6 3; }
  .use { fill: none; stroke-width: 1.6; }
  @media (prefers-color-scheme: dark) {
    text { fill: #e6edf3; }
    .paper { fill: #0d1117; }
    .family, .legend { fill: #b1bac4; }
    .box { fill: #161b22; }
  }
";

const LEGEND: [&str; 2] = [
    "A band is a family of crates. A crate stands above those that it uses; a line has the colour of the family that it leads down to.",
    "A use that others imply is not drawn. A crate with a thick edge is a program, one with a dashed edge a static library for C and Rust.",
];

fn colours() -> String {
    let mut light = String::new();
    let mut dark = String::new();
    for band in 0..FAMILIES.len() {
        // neighbours far apart in hue
        let hue = band * 7 % FAMILIES.len() * 360 / FAMILIES.len();
        light += &format!("  .band{band} {{ fill: hsl({hue}, 45%, 95%); }} .of{band} {{ stroke: hsl({hue}, 50%, 42%); }} .to{band} {{ fill: hsl({hue}, 50%, 42%); }}\n");
        dark += &format!("    .band{band} {{ fill: hsl({hue}, 25%, 14%); }} .of{band} {{ stroke: hsl({hue}, 45%, 62%); }} .to{band} {{ fill: hsl({hue}, 45%, 62%); }}\n");
    }
    format!("{light}  @media (prefers-color-scheme: dark) {{\n{dark}  }}\n")
}

fn escaped(text: &str) -> String {
    text.replace('&', "&amp;").replace('<', "&lt;").replace('>', "&gt;")
}

/// A path through points, each next to the last to the side or below, with round corners.
fn path(points: &[(f64, f64)]) -> String {
    let mut points = points.to_vec();
    points.dedup();
    let mut out = format!("M{} {}", points[0].0, points[0].1);
    for k in 1..points.len() {
        let (from, at) = (points[k - 1], points[k]);
        let Some(&to) = points.get(k + 1) else {
            out += &format!("L{} {}", at.0, at.1);
            continue;
        };
        let near = |other: (f64, f64)| {
            let (dx, dy) = (other.0 - at.0, other.1 - at.1);
            let length = dx.abs() + dy.abs();
            let part = CORNER.min(length / 2.0) / length;
            (at.0 + dx * part, at.1 + dy * part)
        };
        let (before, after) = (near(from), near(to));
        out += &format!("L{} {}Q{} {} {} {}", before.0, before.1, at.0, at.1, after.0, after.1);
    }
    out
}

/// A title in lines of at most 12 characters, where its words allow.
fn wrapped(title: &str) -> Vec<String> {
    let mut lines: Vec<String> = Vec::new();
    for word in title.split(' ') {
        match lines.last_mut() {
            Some(line) if line.len() + 1 + word.len() <= 12 => *line += &format!(" {word}"),
            _ => lines.push(word.to_string()),
        }
    }
    lines
}

fn svg(crates: &[Crate]) -> String {
    let row = rows(crates);
    let count = row.iter().max().map_or(0, |top| top + 1);
    let nets = nets(crates, &row);
    let bands = bands(crates, &nets);
    let ports = ports(crates, &row, &nets, &bands);
    let middle = |place: usize| bands[crates[place].family].middle;

    // the points of each net in each gap; gap k is above row k
    let mut points: BTreeMap<(usize, usize), Vec<f64>> = BTreeMap::new();
    for (k, net) in nets.iter().enumerate() {
        let trunk = trunk(crates, net, &bands);
        for &user in &net.users {
            let gap = points.entry((row[user] - 1, k)).or_default();
            gap.push(ports[&(user, k)]);
            gap.push(if row[user] - 1 == row[net.used] { middle(net.used) } else { trunk });
        }
        if !net.passed.is_empty() {
            points.entry((row[net.used], k)).or_default().extend([trunk, middle(net.used)]);
        }
    }
    let mut track = HashMap::new();
    let mut gap_height = vec![2.0 * CLEAR; count];
    for gap in 0..count {
        let mut stretches: Vec<Stretch> = points
            .range((gap, 0)..(gap + 1, 0))
            .map(|(&(_, net), xs)| Stretch {
                net,
                from: xs.iter().copied().fold(f64::MAX, f64::min),
                to: xs.iter().copied().fold(f64::MIN, f64::max),
            })
            .filter(|stretch| stretch.from < stretch.to)
            .collect();
        let (of_gap, number) = tracks(&mut stretches);
        gap_height[gap] += number.saturating_sub(1) as f64 * TRACK;
        track.extend(of_gap.into_iter().map(|(net, place)| ((gap, net), place)));
    }

    let width = bands.last().map_or(0.0, |band| band.right) + MARGIN;
    let inside: f64 =
        (0..count).map(|k| BOX_HEIGHT + if k + 1 < count { gap_height[k] } else { 0.0 }).sum();
    let bottom = MARGIN + TITLE_HEIGHT + inside;
    let height = bottom + CLEAR + LEGEND_HEIGHT;
    // the upper edge of a row's boxes
    let top =
        |at: usize| bottom - (0..at).map(|k| BOX_HEIGHT + gap_height[k]).sum::<f64>() - BOX_HEIGHT;
    let level = |gap: usize, net: usize| {
        top(gap) - CLEAR - track.get(&(gap, net)).map_or(0.0, |&place| place as f64 * TRACK)
    };

    let mut out = format!(
        "<svg xmlns=\"http://www.w3.org/2000/svg\" viewBox=\"0 0 {width} {height}\" width=\"{width}\" height=\"{height}\" role=\"img\" aria-label=\"The crates by families, and what each uses\">\n<style>{STYLE}{}</style>\n<rect class=\"paper\" width=\"{width}\" height=\"{height}\" rx=\"8\"/>\n",
        colours()
    );
    for (k, band) in bands.iter().enumerate() {
        out += &format!(
            "<rect class=\"band{k}\" x=\"{}\" y=\"{MARGIN}\" width=\"{}\" height=\"{}\" rx=\"6\"/>\n",
            band.left,
            band.right - band.left,
            bottom + CLEAR - MARGIN
        );
        for (place, line) in wrapped(FAMILIES[k].0).iter().enumerate() {
            out += &format!(
                "<text class=\"family\" x=\"{}\" y=\"{}\">{line}</text>\n",
                (band.left + band.right) / 2.0,
                MARGIN + 19.0 + 16.0 * place as f64
            );
        }
    }
    for (k, net) in nets.iter().enumerate() {
        let band = crates[net.used].family;
        let (x, trunk, down) = (middle(net.used), trunk(crates, net, &bands), top(row[net.used]));
        for &user in &net.users {
            let port = ports[&(user, k)];
            let gap = row[user] - 1;
            let mut points = vec![(port, top(row[user]) + BOX_HEIGHT)];
            if gap > row[net.used] {
                points.push((port, level(gap, k)));
                points.push((trunk, level(gap, k)));
                points.push((trunk, level(row[net.used], k)));
            } else {
                points.push((port, level(gap, k)));
            }
            points.push((x, level(row[net.used], k)));
            points.push((x, down - 5.0));
            out += &format!("<path class=\"use of{band}\" d=\"{}\"/>\n", path(&points));
        }
        out += &format!("<path class=\"to{band}\" d=\"M{x} {down}l-4.5 -8h9z\"/>\n");
    }
    for (place, item) in crates.iter().enumerate() {
        let band = &bands[item.family];
        let at = top(row[place]);
        out += &format!(
            "<g><title>{0}: {1}</title><rect class=\"box of{2}{3}\" x=\"{4}\" y=\"{at}\" width=\"{5}\" height=\"{BOX_HEIGHT}\" rx=\"5\"/><text class=\"name\" x=\"{6}\" y=\"{7}\">{0}</text></g>\n",
            item.name,
            escaped(&item.sentence),
            item.family,
            if item.program { " program" } else if item.library { " library" } else { "" },
            band.middle - band.width / 2.0,
            band.width,
            band.middle,
            at + 19.5,
        );
    }
    for (k, line) in LEGEND.iter().enumerate() {
        let y = bottom + CLEAR + 20.0 + 17.0 * k as f64;
        out += &format!("<text class=\"legend\" x=\"{}\" y=\"{y}\">{line}</text>\n", width / 2.0);
    }
    out + "</svg>\n"
}

fn list(crates: &[Crate]) -> String {
    let mut out = String::from("| family | crate | what is in it | over |\n|---|---|---|---|\n");
    for (band, (title, _)) in FAMILIES.iter().enumerate() {
        let of_band = crates.iter().filter(|item| item.family == band);
        for (k, item) in of_band.enumerate() {
            let over: Vec<String> =
                item.uses.iter().map(|&used| format!("`{}`", crates[used].name)).collect();
            out += &format!(
                "| {} | `{}` | {} | {} |\n",
                if k == 0 { title } else { "" },
                item.name,
                item.sentence,
                over.join(", ")
            );
        }
    }
    out
}

fn main() {
    let crates = read_crates();
    match env::args().nth(1).as_deref() {
        Some("svg") => print!("{}", svg(&crates)),
        Some("list") => print!("{}", list(&crates)),
        _ => panic!("usage: draw-crates svg|list"),
    }
}
