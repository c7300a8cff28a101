//! The program `ringrun` against the model: whole outputs compared, on random, damaged, cut up and very long input.

use std::io::{Read, Write};
use std::process::{Command, Stdio};
use winterbeam_tests::check::{check, script, Tally};
use winterbeam_tests::random::{run, shape, Random};
use winterbeam_tests::text::ringrun as model;

/// What the program prints for an input that is written in parts of so many bytes.
fn program(input: &[u8], part: usize) -> Vec<u8> {
    let mut child = Command::new(concat!(env!("CARGO_MANIFEST_DIR"), "/../ringrun"))
        .stdin(Stdio::piped())
        .stdout(Stdio::piped())
        .spawn()
        .expect("../ringrun starts");
    let mut to = child.stdin.take().expect("its standard input");
    let mut from = child.stdout.take().expect("its standard output");
    let reader = std::thread::spawn(move || {
        let mut said = Vec::new();
        from.read_to_end(&mut said).expect("it can be read");
        said
    });
    for bytes in input.chunks(part.max(1)) {
        if to.write_all(bytes).is_err() {
            break; // after a refused first line it reads no further
        }
    }
    drop(to);
    let said = reader.join().expect("the reader ends");
    assert!(child.wait().expect("it ends").success());
    said
}

/// The input with lines left out for as long as the outputs still differ.
fn smallest(input: &[u8]) -> Vec<u8> {
    let mut lines: Vec<&[u8]> = input.split_inclusive(|&b| b == b'\n').collect();
    let mut at = 0;
    while at < lines.len() {
        let mut fewer = lines.clone();
        fewer.remove(at);
        let text = fewer.concat();
        if program(&text, text.len()) == model(&text) {
            at += 1;
        } else {
            lines = fewer;
        }
    }
    lines.concat()
}

fn compare(seed: u64, input: &[u8], part: usize) {
    let (said, wanted) = (program(input, part), model(input));
    if said != wanted {
        let input = smallest(input);
        let (said, wanted) = (program(&input, part), model(&input));
        panic!(
            "seed {seed}: the smallest input\n{}\nprints\n{}\ninstead of\n{}",
            String::from_utf8_lossy(&input),
            String::from_utf8_lossy(&said),
            String::from_utf8_lossy(&wanted)
        );
    }
}

/// A script with bytes changed, put in or left out, and lines that nobody understands.
fn damaged(random: &mut Random, text: &str) -> Vec<u8> {
    let bad: [&[u8]; 16] = [
        b"",
        b" ",
        b"go",
        b"go 00",
        b"go 01",
        b"put 0",
        b"put 0 4294967296",
        b"put 0 0",
        b"go  0",
        b"go 0 ",
        b"go\t0",
        b"go 0\r",
        b"ring 4 2 16",
        b"back cell",
        b"back tail 0",
        b"\0",
    ];
    let mut out = Vec::new();
    for line in text.split_inclusive('\n') {
        if random.chance(5) {
            out.extend_from_slice(random.pick(&bad));
            out.push(b'\n');
        }
        if random.chance(1) {
            out.extend(std::iter::repeat(b'7').take(random.within(38, 5000) as usize));
            out.push(b'\n');
        }
        let mut line = line.as_bytes().to_vec();
        if random.chance(3) {
            let at = random.below(line.len() as u32) as usize;
            match random.below(3) {
                0 => line[at] = random.below(256) as u8,
                1 => line.insert(at, random.below(256) as u8),
                _ => drop(line.remove(at)),
            }
        }
        out.extend_from_slice(&line);
    }
    if random.chance(30) {
        out.pop();
    }
    out
}

#[test]
fn random_scripts_print_what_the_model_prints() {
    const RUNS: u64 = 600;
    const FIRST_SEED: u64 = 713_000_000;
    println!("seeds {FIRST_SEED} to {}", FIRST_SEED + RUNS - 1);
    let (mut tally, mut refused) = (Tally::default(), [0u64; 13]);
    for seed in FIRST_SEED..FIRST_SEED + RUNS {
        let mut random = Random(seed);
        let wide = random.chance(20);
        let shape = shape(&mut random, if wide { 64 } else { 5 }, if wide { 8 } else { 4 }, 255);
        let events = run(&mut random, shape, 400);
        check(shape, &events, &mut tally).expect("the model keeps demand 3");
        let text = script(shape, &events);
        let input = if seed % 2 == 0 { text.into_bytes() } else { damaged(&mut random, &text) };
        let part = random.pick(&[1usize << 20, 4096, 511]);
        compare(seed, &input, part);
        for line in model(&input).split(|&b| b == b'\n') {
            let words: Vec<&str> = std::str::from_utf8(line).expect("text").split(' ').collect();
            if words[0] == "refused" {
                refused[words[2].parse::<usize>().expect("a number")] += 1;
            }
        }
    }
    println!("{}\nrefused, by number: {refused:?}", tally.coverage.text());
    assert_eq!(tally.coverage.missing(), [], "outcomes of the table that never happened");
    for number in [2, 3, 4, 5, 6, 9] {
        assert!(refused[number] > 0, "refusal {number} never happened");
    }
}

#[test]
fn first_lines_and_edges() {
    let inputs: [&[u8]; 24] = [
        b"",
        b"\n",
        b"\n\n",
        b"ring",
        b"ring 4 2 16",
        b"ring 4 2 16\n",
        b"ring 4 2 16\n\n",
        b"ring 4 2 16\n\n\n",
        b"ring 0 2 16\ngo 0\n",
        b"ring 65 2 16\n",
        b"ring 64 8 255\ncut",
        b"ring 1 1 1\ncut\n",
        b"ring 4 9 16",
        b"ring 4 2 256",
        b"ring 4 2 0",
        b"ring 4 0 1",
        b"ring 04 2 16\n",
        b"ring 4 2 16 \n",
        b"put 0 1\nring 4 2 16\n",
        b"ring 4 2 16\nput 0 4294967295\nput 1 0\nput 2 1\ntake 0\n",
        b"ring 4 2 16\nback cell 4\nback copy 2\nback cell 3\nback copy 1\nback tail\ngo 0\n",
        b"cut",
        b"ring 4294967296 1 1",
        b"\0\xff\n",
    ];
    for input in inputs {
        compare(0, input, 3);
    }
    assert_eq!(program(b"", 1), b"refused 1 9\nend 0\n");
    assert_eq!(program(b"ring 0 2 16\ngo 0\n", 99), b"refused 1 1\nend 0\n");
}

// The program reads 65,536 bytes at a time and runs up to 256 lines in one call.
#[test]
fn block_borders_make_no_difference() {
    let mut random = Random(714);
    let shape = shape(&mut random, 5, 4, 4);
    for (events, parts) in [
        (3000, [1, 2, 40, 41, 42, 4097]),
        (40_000, [511, 65_535, 65_536, 65_537, 131_072, 1 << 20]),
    ] {
        let text = script(shape, &run(&mut random, shape, events));
        let mut input = damaged(&mut random, &text);
        input.extend_from_slice(b"go 0");
        assert!(input.len() > 5 * events as usize);
        for part in parts {
            compare(714, &input, part);
        }
    }
}

#[test]
fn a_run_goes_to_its_limit_and_no_further() {
    let mut input = b"ring 3 2 2\nput 0 5\ntake 1\n".to_vec();
    for _ in 0..499_990 {
        input.extend_from_slice(b"go 0\nback tail\n");
    }
    input.extend_from_slice(b"cut\n");
    for _ in 0..30 {
        input.extend_from_slice(b"back cell 0\ncut\n");
    }
    let wanted = model(&input);
    assert!(wanted.ends_with(b"end 1000000\n") && wanted.windows(3).any(|w| w == b" 7\n"));
    assert!(program(&input, 1 << 20) == wanted, "a run past the limit differs");
}

#[test]
fn the_examples_print_what_the_page_says() {
    let examples: [(&str, &str); 5] = [
        ("first", "7 ok 0 711\n12 cut 0 0 1 0 1 711\nend 12\n"),
        ("lost_in_flight", "5 cut 0 0 0 0 0\nend 5\n"),
        ("take_cut_off", "7 ok 0 711\n13 cut 1 1 1 0 0\nend 13\n"),
        ("closed", "7 ok 0 711\n15 closed 0\n16 cut 0 0 1 1 1 711\nend 16\n"),
        ("case_g", "7 ok 0 101\n14 ok 0 102\n21 ok 0 103\n28 ok 0 104\n44 ok 0 105\n45 cut 2 2 6 0 3 103 104 105\nend 45\n"),
    ];
    for (name, wanted) in examples {
        let path = format!("{}/../examples/{name}.ring", env!("CARGO_MANIFEST_DIR"));
        let input = std::fs::read(path).expect("an example");
        assert_eq!(String::from_utf8_lossy(&program(&input, input.len())), wanted, "{name}");
    }
}
