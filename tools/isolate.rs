// Isolation on two replay files: which lines belong to a group of PEs, and their answers side by side.
//
//     isolate GROUP FILE FILE
//
// Whom a request belongs to, whether the group is closed, which table words are public or the group's,
// and the answers come from proved functions. The premises are those of `isolated_run` in
// crates/isolation_tests/proofs/SeenLaws.antt; one that fails is named, and then nothing is compared.
// A replay text has no line for a fatal message or a fence clear, so that nothing is asked of those.
//
// Exit 0: all is the same. 1: a premise fails, or an answer or a word left differs. 2: it could not be tried.

#[path = "../host/celltimber.rs"]
#[allow(dead_code)]
mod celltimber;
#[path = "../tests/owner_tables.rs"]
mod owner_tables;
#[path = "../tests/plain_words.rs"]
#[allow(dead_code)]
mod plain_words;
mod premises;
#[path = "../plain/replay.rs"]
#[allow(dead_code)]
mod replay;
#[allow(dead_code)]
mod replay_file;

use celltimber::*;
use owner_tables::OwnerTables;
use premises::{agree, group, same_afterwards, Group, Two};
use replay::bridge;
use replay_file::{aligned, answers, finish, read, shown, File};
use std::env;
use std::process::exit;

// ---- Premises ----

fn place(file: &File, line: Option<(usize, &str)>) -> String {
    match line {
        None => format!("{} has no further one", file.name),
        Some((number, text)) => format!("{} has '{}' in line {}", file.name, text, number),
    }
}

/// The requests of a file that belong to the group, by their places, with their owners.
fn own(file: &File, group: &Group) -> Vec<(usize, u64)> {
    let tables = OwnerTables::of(&file.tables);
    let owners = file.requests.iter().map(|line| tables.owner(&line.words));
    owners.enumerate().filter(|&(_, pe)| member(group, pe)).collect()
}

fn same_own(files: &[File; 2], own: &[Vec<(usize, u64)>; 2]) -> Result<(), String> {
    let [a, b] = files;
    for k in 0..own[0].len().max(own[1].len()) {
        let x = own[0].get(k).map(|&(i, _)| &a.requests[i]);
        let y = own[1].get(k).map(|&(i, _)| &b.requests[i]);
        if x.map(|x| x.words) != y.map(|y| y.words) {
            return Err(format!(
                "the same own requests, in the same order: {}, {}",
                place(a, x.map(|x| (x.number, &*x.text))),
                place(b, y.map(|y| (y.number, &*y.text)))
            ));
        }
    }
    Ok(())
}

// ---- Answers ----

/// The two files as the premises have them.
fn two(files: &[File; 2]) -> Two<'_> {
    files.each_ref().map(|file| (&*file.name, &file.tables))
}

/// What is printed, and whether all is the same; or the premise that fails.
fn compare(group_text: &str, names: [&str; 2]) -> Result<(String, bool), String> {
    let mut files = [read(names[0])?, read(names[1])?];
    let sizes = files.each_ref().map(|file| {
        let t = &file.tables;
        (t.n, t.m, t.r, t.memory.len())
    });
    if sizes[0] != sizes[1] {
        let [x, y] = files.each_ref().map(|file| place(file, Some((file.size.0, &file.size.1))));
        return Err(format!("the same size line: {}, {}", x, y));
    }
    let group = group(group_text, sizes[0].0)?;
    agree(&two(&files), &group)?;
    let own = files.each_ref().map(|file| own(file, &group));
    same_own(&files, &own)?;

    let answers = files.each_mut().map(answers);
    let mut text = format!("group {}; first {}; second {}\n", group_text, names[0], names[1]);
    let title =
        ["first", "second", "PE", "request", "answer in the first", "answer in the second", ""];
    let mut rows = vec![title.map(str::to_string).to_vec()];
    let mut different = 0;
    for (&(i, pe), &(j, _)) in own[0].iter().zip(&own[1]) {
        let (x, y) = (&answers[0][i], &answers[1][j]);
        different += usize::from(x != y);
        rows.push(vec![
            files[0].requests[i].number.to_string(),
            files[1].requests[j].number.to_string(),
            format!("{:x}", pe),
            files[0].requests[i].text.clone(),
            shown(x),
            shown(y),
            if x == y { "same" } else { "DIFFERENT" }.to_string(),
        ]);
    }
    text += &aligned(&rows);
    let afterwards = same_afterwards(&two(&files), &group);
    let word = if afterwards { "same" } else { "DIFFERENT" };
    text += &format!(
        "stop bits, error records and interrupt records of the group, and the fence word, afterwards: {}\n",
        word
    );
    text += &format!(
        "{} of {} and {} requests belong to the group: {} same, {} different\n",
        own[0].len(),
        files[0].requests.len(),
        files[1].requests.len(),
        own[0].len() - different,
        different
    );
    Ok((text, different == 0 && afterwards))
}

fn stop(message: &str) -> ! {
    eprintln!("isolate: {}", message);
    exit(2)
}

fn main() {
    let arguments = env::args().skip(1).collect::<Vec<_>>();
    let [group, first, second] = &arguments[..] else {
        stop("usage: isolate GROUP FILE FILE");
    };
    finish(compare(group, [first, second]))
}
