//! The library against unverified Rust programs, on the same input in one run. Every figure is the best of several rounds, and the
//! ratios are what counts. The results of both sides are compared as well.

mod plain;

use std::hint::black_box;
use std::time::Instant;

extern "C" {
    fn marking_vet(pattern: *const u8, pattern_len: usize, evidence: *mut u8, evidence_len: usize) -> u64;
    fn marking_mark(pattern: *const u8, pattern_len: usize, answer: *const u8, answer_len: usize, count: *mut u64) -> u64;
}

/// The count, the mark and the letters taken, or the refusal.
type Marked = Result<(u64, i32, usize), u8>;

/// A program that marks an answer by a pattern.
type Marker = fn(&[u8], &[u8]) -> Marked;

fn mark(pattern: &[u8], answer: &[u8]) -> Marked {
    let mut count = 0;
    let r = unsafe { marking_mark(pattern.as_ptr(), pattern.len(), answer.as_ptr(), answer.len(), &mut count) };
    match (r >> 32) as u8 {
        0 => Ok((count, r as u32 as i32, (r >> 40) as usize)),
        n => Err(n),
    }
}

fn vet(pattern: &[u8], evidence: &mut [u8; 4096]) -> u64 {
    unsafe { marking_vet(pattern.as_ptr(), pattern.len(), evidence.as_mut_ptr(), evidence.len()) }
}

/// The verdict, the number of positions, the three lengths and the texts shown, or the refusal. Of the patterns here both sides show the same
/// texts; of others they may show two of the same lengths, since each takes its own path where there are several as short.
fn vetted(pattern: &[u8]) -> Result<(u8, usize, [usize; 3], Vec<u8>), u8> {
    let mut evidence = [0; 4096];
    let r = vet(pattern, &mut evidence);
    let lengths = [24, 36, 48].map(|at| (r >> at & 0xfff) as usize);
    match r as u8 {
        0 => Ok(((r >> 8) as u8, (r >> 16) as u8 as usize, lengths, evidence[..lengths.iter().sum()].to_vec())),
        n => Err(n),
    }
}

/// Seconds of the best of some rounds.
fn time(rounds: usize, mut f: impl FnMut()) -> f64 {
    (0..rounds)
        .map(|_| {
            let t = Instant::now();
            f();
            t.elapsed().as_secs_f64()
        })
        .fold(f64::MAX, f64::min)
}

struct Load {
    name: &'static str,
    pattern: Vec<u8>,
    answers: Vec<Vec<u8>>,
}

/// A small generator, so that every run has the same input.
struct Random(u64);

impl Random {
    fn below(&mut self, n: usize) -> usize {
        self.0 = self.0.wrapping_mul(6364136223846793005).wrapping_add(1442695040888963407);
        (self.0 >> 33) as usize % n
    }

    fn text(&mut self, letters: &[u8], n: usize) -> Vec<u8> {
        (0..n).map(|_| letters[self.below(letters.len())]).collect()
    }
}

const ORDINARY: &[u8] = b"(th=1e|a=1) (qui=2ck|sl=1ow) (brown|red)? ?fox(es)? (jump(s|ed)?|ran) ove=1r .*";

const FRENCH: &str = "(l'é=1té dernier|l'anné=1e derniè=1re) (nous|ils) (avons|ont) é=1té .*";

/// A text as the library takes it.
fn latin1(text: &str) -> Vec<u8> {
    text.chars().map(|c| u8::try_from(c).expect("a letter of ISO 8859-1")).collect()
}

/// 60 positions, each with two or four that may come next, in two branches of 13 and 17 steps: after some letters all are possible.
fn busy(atoms: &str) -> String {
    format!("({}|{})*", atoms.repeat(13), atoms.repeat(17))
}

/// 60 positions, each with four that may come next, two of them by two links: after 30 letters all are possible.
fn twice() -> String {
    format!("({})*", "((.|.)+)+".repeat(30))
}

/// 60 positions in four branches of steps of one letter or another.
fn held_by_some() -> String {
    format!("({}|{}|{}|{})*", "[a-d]".repeat(13), "[c-f]".repeat(15), "[e-h]".repeat(16), "[a-h]".repeat(16))
}

/// So many positions, an even number, each with four that may come next: after half as many letters all are possible.
fn four_next(positions: usize) -> String {
    format!("({})*", "(.|.)+".repeat(positions / 2))
}

fn loads() -> Vec<Load> {
    let mut r = Random(1);
    let mut text = |letters: &[u8], n| r.text(letters, n);
    let twice = twice().into_bytes();
    vec![
        Load {
            name: "every position possible, 4,096 letters",
            pattern: busy("(.|.)").into_bytes(),
            answers: (0..20).map(|_| text(b"abcdefgh", 4096)).collect(),
        },
        Load {
            name: "each letter held by some, 4,096 letters",
            pattern: held_by_some().into_bytes(),
            answers: (0..20).map(|_| text(b"abcdefgh", 4096)).collect(),
        },
        Load {
            name: "repeats in repeats, 4,096 letters",
            pattern: twice.clone(),
            answers: (0..20).map(|_| text(b"abcdefgh", 4096)).collect(),
        },
        Load {
            name: "repeats in repeats, 60 letters",
            pattern: twice,
            answers: (0..20).map(|_| text(b"abcdefgh", 60)).collect(),
        },
        // each of 60 positions after each, by two or three links
        Load {
            name: "all pairs linked twice, 4,096 letters",
            pattern: format!("(({})*)*", ".*".repeat(60)).into_bytes(),
            answers: vec![text(b"abcdefgh", 4096)],
        },
        // as the first, and each position earns or takes off
        Load {
            name: "credits of both signs, 4,096 letters",
            pattern: busy("(.=2|.=-3)").into_bytes(),
            answers: vec![b"abcdefgh".repeat(512); 20],
        },
        Load {
            name: "ordinary text, 4,096 letters",
            pattern: ORDINARY.to_vec(),
            answers: vec![[&b"the quick brown fox jumped over "[..], &text(b"abcdefgh ", 4064)].concat()],
        },
        Load {
            name: "French text, some 60 letters",
            pattern: latin1(FRENCH),
            answers: [
                "l'été dernier nous avons été à la plage près de Saint-Malo",
                "l'année dernière ils ont été très gênés par la forêt brûlée",
                "l'été dernier ils ont été reçus à dîner chez un maître d'école",
                "l'ete dernier nous avons été à la plage près de Saint-Malo",
            ]
            .map(latin1)
            .to_vec(),
        },
        Load {
            name: "ordinary text, some 60 letters",
            pattern: ORDINARY.to_vec(),
            answers: vec![
                b"the quick brown fox jumped over the lazy dog near the river".to_vec(),
                b"a slow fox ran over a hill and was never seen again by us".to_vec(),
                b"the quick red foxes jumps over them and then over the fence".to_vec(),
                b"teh quick brown fox jumped over the lazy dog near the river".to_vec(),
            ],
        },
    ]
}

fn marking() {
    println!("\nmarking                                        library   by sets  all pairs   /sets  /all pairs");
    for l in loads() {
        for a in &l.answers {
            let got = mark(&l.pattern, a);
            assert_eq!(got, plain::mark(&l.pattern, a));
            assert_eq!(got, plain::mark_all_pairs(&l.pattern, a));
        }
        let n = if l.answers[0].len() > 1000 { 1 } else { 500 };
        let run = |f: Marker, n: usize| {
            time(7, || {
                for _ in 0..n {
                    for a in &l.answers {
                        let _ = black_box(f(black_box(&l.pattern), black_box(a)));
                    }
                }
            }) / (n * l.answers.len()) as f64
        };
        let lib = run(mark, n);
        let sets = run(plain::mark, n);
        let pairs = run(plain::mark_all_pairs, n.div_ceil(10));
        println!("{:44} {:8.1} {:9.1} {:10.1}  {:6.2} {:8.3}", l.name, lib * 1e6, sets * 1e6, pairs * 1e6, lib / sets, lib / pairs);
    }
}

fn patterns() -> Vec<(&'static str, Vec<Vec<u8>>)> {
    let one = |s: String| vec![s.into_bytes()];
    let mut nested = "a".to_string();
    for k in 0..30 {
        nested = if k % 2 == 0 { format!("({nested}b)*") } else { format!("(c{nested})*") };
    }
    let distinct = different_letters();
    vec![
        ("a* sixty times", one("a*".repeat(60))),
        ("a? sixty times", one("a?".repeat(60))),
        ("thirty nested repeats", one(nested)),
        ("sixty overlapping classes", one("[a-p]*[b-q]*".repeat(30))),
        ("sixty different positions in one repeat", one(format!("({})*", distinct.concat()))),
        ("sixty alternatives in one repeat", one(format!("({})*", distinct.join("|")))),
        ("sixty alternatives in 131 repeats", one(format!("{}{}{}", "(".repeat(131), ["a"; 60].join("|"), ")*".repeat(131)))),
        (
            "ordinary patterns",
            ["colou?r", "(a|a)b", "(a|b|ab)*c", "[a-z]+( [a-z]+)*", "(th=1e|a=1) (quic=2k|slow) fox(es)?", "[0-9][0-9]?/[0-9][0-9]?/[0-9][0-9][0-9][0-9]", ".*is.*", "(he|she|it) (has|had) (been )?(go|do)ing"]
                .iter()
                .map(|s| s.as_bytes().to_vec())
                .collect(),
        ),
    ]
}

/// Patterns with intervals: ordinary ones, sixty copies in several ways, and the one of 512 bytes that takes longest to read.
fn with_intervals() -> Vec<(&'static str, Vec<Vec<u8>>)> {
    let one = |s: &str| vec![s.as_bytes().to_vec()];
    let longest = format!("{}(a?){{60}}{}", "(".repeat(168), ")*".repeat(168));
    let class = format!("[{}]{{60}}", "a-cx".repeat(126));
    vec![
        ("[0-9]{2}/[0-9]{2}/[0-9]{4}", one("[0-9]{2}/[0-9]{2}/[0-9]{4}")),
        ("a{60}", one("a{60}")),
        ("a{0,60}", one("a{0,60}")),
        ("(((a{2}){2}){3}){5}", one("(((a{2}){2}){3}){5}")),
        ("((a|b)*c){10}", one("((a|b)*c){10}")),
        ("((a+)+b){30}", one("((a+)+b){30}")),
        ("(a?){60}", one("(a?){60}")),
        ("sixty copies of a long class", vec![class.into_bytes()]),
        ("101 intervals, one in another", vec![format!("{}a{}", "(".repeat(101), "){1}".repeat(101)).into_bytes()]),
        ("(a?){60} in 168 repeats", vec![longest.into_bytes()]),
        (
            "ordinary patterns with intervals",
            ["[0-9]{1,2}/[0-9]{1,2}/[0-9]{4}", "[A-Z]{2}[0-9]{6}", "(ha ?){2,5}!", "[a-z]{3,}( [a-z]{3,}){0,4}", "(very=1 ){0,3}good", "no{2,}"]
                .iter()
                .map(|s| s.as_bytes().to_vec())
                .collect(),
        ),
    ]
}

/// Sixty different letters as a pattern writes them.
fn different_letters() -> Vec<String> {
    let write = |b: u8| if b"|*+?()[]{}^$.\\=".contains(&b) { format!("\\{}", b as char) } else { (b as char).to_string() };
    (33..93).map(write).collect()
}

fn vetting() {
    println!("\nvetting                                        library     plain   ratio");
    let mut search = plain::Search::new();
    for p in loads().iter().map(|l| &l.pattern).chain(patterns().iter().flat_map(|(_, list)| list)) {
        assert_eq!(vetted(p), plain::vet(p, &mut search), "{}", String::from_utf8_lossy(p));
    }
    for (name, list) in patterns() {
        let mut evidence = [0u8; 4096];
        let n = if list.len() > 1 { 300 } else { 5 };
        let lib = time(7, || {
            for _ in 0..n {
                for p in &list {
                    black_box(vet(black_box(p), &mut evidence));
                }
            }
        }) / (n * list.len()) as f64;
        let plain = time(7, || {
            for _ in 0..n {
                for p in &list {
                    let _ = black_box(plain::vet(black_box(p), &mut search));
                }
            }
        }) / (n * list.len()) as f64;
        println!("{:44} {:8.1} {:9.1}  {:6.2}", name, lib * 1e6, plain * 1e6, lib / plain);
    }
}

/// Reading alone: a mark of the empty answer.
fn reading() {
    println!("\nreading, by a mark of the empty answer         library     plain   ratio");
    reading_of(patterns());
    println!("\nreading with intervals                         library     plain   ratio");
    let mut search = plain::Search::new();
    for p in with_intervals().into_iter().flat_map(|(_, list)| list) {
        assert_eq!(vetted(&p), plain::vet(&p, &mut search), "{}", String::from_utf8_lossy(&p));
        for a in [&b""[..], b"a", b"aaa", b"very good", b"16/11/2026", b"abcaacbbc", &[b'a'; 60]] {
            assert_eq!(mark(&p, a), plain::mark(&p, a), "{}", String::from_utf8_lossy(&p));
        }
    }
    reading_of(with_intervals());
}

fn reading_of(rows: Vec<(&'static str, Vec<Vec<u8>>)>) {
    let mut ratios = Vec::new();
    for (name, list) in rows {
        let n = 200;
        let run = |f: Marker| {
            time(7, || {
                for _ in 0..n {
                    for p in &list {
                        let _ = black_box(f(black_box(p), b""));
                    }
                }
            }) / (n * list.len()) as f64
        };
        let (lib, plain) = (run(mark), run(plain::mark));
        println!("{:44} {:8.2} {:9.2}  {:6.2}", name, lib * 1e6, plain * 1e6, lib / plain);
        ratios.push(lib / plain);
    }
    let mean = (ratios.iter().map(|r| r.ln()).sum::<f64>() / ratios.len() as f64).exp();
    println!("{:44} {:8} {:9}  {:6.2}", "geometric mean", "", "", mean);
}

/// A pattern, and a right answer of 4,096 letters, which goes wrong where its tenth letter is made another.
fn at_the_tenth() -> Vec<(&'static str, Vec<u8>, Vec<u8>, u8)> {
    let mut r = Random(2);
    let mut text = |letters: &[u8], n| r.text(letters, n);
    let letters = text(b"abcdefgh", 4096);
    let words = b"word after ".repeat(373)[..4096].to_vec();
    let ordinary = [&b"the quick brown fox jumped over "[..], &text(b"abcdefgh ", 4064)].concat();
    vec![
        ("[a-z]+( [a-z]+)*", b"[a-z]+( [a-z]+)*".to_vec(), words.clone(), b'#'),
        ("ordinary text", ORDINARY.to_vec(), ordinary, b'#'),
        ("[a-h]{60,}", b"[a-h]{60,}".to_vec(), letters.clone(), b'#'),
        ("60 positions, each letter held by some", held_by_some().into_bytes(), letters.clone(), b'#'),
        (".{9}[^~].*", b".{9}[^~].*".to_vec(), letters.clone(), b'~'),
        ("60 classes of all letters but one", busy("([^~]|[^~])").into_bytes(), letters.clone(), b'~'),
        ("([a-z]+ ?)+", b"([a-z]+ ?)+".to_vec(), words, b'#'),
        ("60 positions, repeats in repeats", format!("({})*", "(([^~]|[^~])+)+".repeat(30)).into_bytes(), letters, b'~'),
    ]
}

/// Long answers that go wrong at their tenth letter: the whole call beside reading the pattern alone, by a mark of the empty answer, and
/// beside the whole call on a right answer as long.
fn wrong() {
    println!("\n4,096 letters, wrong at the tenth              reading     wrong   ratio     right");
    for (name, pattern, right, other) in at_the_tenth() {
        let mut answer = right.clone();
        answer[9] = other;
        for a in [&right, &answer] {
            let got = mark(&pattern, a);
            assert_eq!(got, plain::mark(&pattern, a), "{name}");
            assert_eq!(got, plain::mark_all_pairs(&pattern, a), "{name}");
            assert!(got.is_ok_and(|(count, _, taken)| (count > 0, taken) == if *a == right { (true, 4096) } else { (false, 10) }), "{name}");
        }
        let run = |answer: &[u8], n: usize| {
            time(7, || {
                for _ in 0..n {
                    let _ = black_box(mark(black_box(&pattern), black_box(answer)));
                }
            }) / n as f64
        };
        let (reading, wrong, right) = (run(b"", 1000), run(&answer, 1000), run(&right, 10));
        println!("{:44} {:8.2} {:9.2}  {:6.2} {:9.1}", name, reading * 1e6, wrong * 1e6, wrong / reading, right * 1e6);
    }
}

/// The library, by sets and by all pairs, results compared. A row is of figures alone, as the picture's data have them.
fn growth_row(at: usize, pattern: &str, answer: &[u8]) {
    let pattern = pattern.as_bytes();
    let got = mark(pattern, answer);
    assert_eq!(got, plain::mark(pattern, answer));
    assert_eq!(got, plain::mark_all_pairs(pattern, answer));
    let run = |f: Marker| {
        time(21, || {
            black_box(f(black_box(pattern), black_box(answer))).ok();
        }) * 1e6
    };
    println!("{at:44} {:8.1} {:9.1} {:10.1}", run(mark), run(plain::mark), run(plain::mark_all_pairs));
}

/// How the time grows with an answer's letters and with a pattern's positions, and what a term takes.
fn growth() {
    let heading = |name: &str| println!("\n{name:46}library   by sets  all pairs");
    for (next, pattern) in [("two", busy("(.|.)")), ("four", four_next(60))] {
        heading(&format!("growth by letters, 60 positions, {next} next"));
        for letters in [0, 256, 512, 1024, 2048, 4096] {
            growth_row(letters, &pattern, &vec![b'a'; letters]);
        }
    }
    heading("growth by positions, 4,096 letters, four next");
    for positions in [10, 20, 30, 40, 50, 60] {
        growth_row(positions, &four_next(positions), &[b'a'; 4096]);
    }
    println!("\ngrowth of vetting by positions");
    let mut evidence = [0u8; 4096];
    for positions in [10, 20, 30, 40, 50, 60] {
        let pattern = b"a?".repeat(positions);
        let t = time(7, || {
            black_box(vet(black_box(&pattern), &mut evidence));
        });
        println!("{positions:10} positions, a? each {:10.1}", t * 1e6);
    }
    let list = patterns().pop().expect("ordinary patterns").1;
    let vetting = time(7, || {
        for k in 0..10_400 {
            black_box(vet(&list[k % list.len()], &mut evidence));
        }
    });
    let load = loads().pop().expect("ordinary text");
    let marking = time(3, || {
        for k in 0..36_000 {
            black_box(mark(&load.pattern, &load.answers[k % load.answers.len()])).ok();
        }
    });
    println!("\na term: 10,400 patterns {vetting:.3} s, 3.6 million answers {:.1} s", marking * 100.0);
}

/// Rounds in which the library and another program took turns: the best times, their ratio, which is given back, and the lowest and the
/// highest ratio of a round.
fn row(name: &str, rounds: &[[f64; 2]]) -> f64 {
    let best = |side: usize| rounds.iter().map(|times| times[side]).fold(f64::MAX, f64::min);
    let ratios = || rounds.iter().map(|[library, other]| library / other);
    let (lowest, highest) = (ratios().fold(f64::MAX, f64::min), ratios().fold(0.0, f64::max));
    let ratio = best(0) / best(1);
    println!("{name:44} {:8.2} {:9.2} {ratio:8.3} {lowest:8.3} {highest:8.3}", best(0) * 1e6, best(1) * 1e6);
    ratio
}

/// Answers of some 60 letters: those of the loads, words, and every position possible.
fn short_loads() -> Vec<Load> {
    let mut list: Vec<Load> = loads().into_iter().filter(|l| l.name.ends_with("60 letters")).collect();
    list.push(Load { name: "words, some 60 letters", pattern: b"[a-z]+( [a-z]+)*".to_vec(), answers: vec![b"word after ".repeat(6)[..59].to_vec()] });
    list.push(Load {
        name: "every position possible, 60 letters",
        pattern: four_next(60).into_bytes(),
        answers: vec![Random(4).text(b"abcdefgh", 60)],
    });
    list
}

/// Short answers: the whole call, and without reading the pattern, which is the call less a mark of the empty answer on the same side. Five
/// rounds, each of the best of a hundred turns of some two milliseconds.
fn short_answers() {
    println!("\nmarking a short answer, some 60 letters        library   by sets    ratio   lowest  highest");
    for l in short_loads() {
        for a in &l.answers {
            assert_eq!(mark(&l.pattern, a), plain::mark(&l.pattern, a));
        }
        let turn = |f: Marker, answers: &[Vec<u8>], n: usize| {
            time(1, || {
                for a in (0..n).flat_map(|_| answers) {
                    let _ = black_box(f(black_box(&l.pattern), black_box(a)));
                }
            }) / (n * answers.len()) as f64
        };
        let (answers, empty) = (&l.answers[..], vec![Vec::new(); l.answers.len()]);
        let n = (0.002 / (turn(mark, answers, 10) * answers.len() as f64)) as usize + 1;
        let (mut whole, mut marking) = ([[f64::MAX; 2]; 5], [[0.0; 2]; 5]);
        for (whole, marking) in whole.iter_mut().zip(&mut marking) {
            let mut reading = [f64::MAX; 2];
            for _ in 0..100 {
                for (side, f) in [mark, plain::mark as Marker].into_iter().enumerate() {
                    whole[side] = whole[side].min(turn(f, answers, n));
                    reading[side] = reading[side].min(turn(f, &empty, n));
                }
            }
            *marking = [whole[0] - reading[0], whole[1] - reading[1]];
        }
        let name = l.name.split(',').next().unwrap_or(l.name);
        row(&format!("{name}, whole call (aim 3)"), &whole);
        row(&format!("{name}, less reading (aim 1.3)"), &marking);
    }
}

/// A pattern of the Monday run, with what each of its answers begins with and the letters that come after.
struct Monday {
    name: &'static str,
    pattern: String,
    begin: &'static [u8],
    letters: &'static [u8],
}

/// Whatever its letters are, each answer has a reading: ordinary text ends in `.*`, and the repeat of any other pattern goes round through
/// 4,096 letters in some way, by sixteen `[a-h]` where each letter is held by some.
fn mondays() -> Vec<Monday> {
    let any = |name, pattern| Monday { name, pattern, begin: b"", letters: b"abcdefgh" };
    vec![
        any("every position possible, four next", four_next(60)),
        // 240 links, and no two positions have the same states before them
        any("the same, each with its own states before", format!("({})*", "(.+|.+|.+)".repeat(20))),
        any("loops of three", format!("({})*", "(..*.*)+".repeat(20))),
        any("two of four by two links", twice()),
        any("three next in the mean", format!("({})*", "(.|.)(.|.)?".repeat(15))),
        any("two next", busy("(.|.)")),
        any("two next, credits of both signs", busy("(.=2|.=-3)")),
        any("each letter held by some", held_by_some()),
        Monday {
            name: "ordinary text",
            pattern: "(th=1e|a=1) (qui=2ck|sl=1ow) (brown|red)? ?fox(es)? (jump(s|ed)?|ran) ove=1r (the lazy dog )?.*".to_string(),
            begin: b"the quick brown fox jumped over the lazy dog ",
            letters: b"abcdefgh ",
        },
    ]
}

/// Patterns of 60 positions, each with at most four that may come next, a thousand answers to each, and three rounds in which the library
/// and all pairs mark them all in turn: some fifteen minutes. For a trial, `MONDAY_ANSWERS=20` takes that many. The names are in quotes, as
/// the picture's data have them.
fn monday() {
    let n = std::env::var("MONDAY_ANSWERS").map_or(1000, |n| n.parse().expect("MONDAY_ANSWERS is a number"));
    println!("\nthe Monday run: a thousand answers of 4,096 letters, each with a reading, 60 positions, at most four next");
    if n != 1000 {
        println!("a trial: {n} answers, times as for a thousand");
    }
    println!("milliseconds for the thousand                  library all pairs    ratio   lowest  highest");
    let mut r = Random(3);
    let mut worst = (0.0, "");
    for Monday { name, pattern, begin, letters } in mondays() {
        let pattern = pattern.as_bytes();
        assert!(matches!(plain::follows(pattern), Ok((60, 1..=4))), "{name}");
        let answers: Vec<Vec<u8>> = (0..n).map(|_| [begin, &r.text(letters, 4096 - begin.len())].concat()).collect();
        let run = |f: Marker| {
            let t = Instant::now();
            let marks: Vec<Marked> = answers.iter().map(|a| f(black_box(pattern), black_box(a))).collect();
            (t.elapsed().as_secs_f64() / n as f64, marks)
        };
        let rounds = [(); 3].map(|()| {
            let ((library, marks), (pairs, same)) = (run(mark), run(plain::mark_all_pairs));
            assert!(marks == same, "{name}");
            assert!(marks.iter().all(|m| m.is_ok_and(|(count, ..)| count > 0)), "{name}");
            [library, pairs]
        });
        let ratio = row(&format!("\"{name}\""), &rounds);
        if ratio > worst.0 {
            worst = (ratio, name);
        }
    }
    println!("the worst ratio: {:.3}, {} (the bound 0.5, the aim 0.05)", worst.0, worst.1);
}

/// The longest is the last.
const PARTS: [(&str, fn()); 7] = [
    ("marking", marking),
    ("vetting", vetting),
    ("reading", reading),
    ("wrong", wrong),
    ("growth", growth),
    ("short", short_answers),
    ("monday", monday),
];

/// The parts that are named, or all of them.
fn main() {
    let named: Vec<String> = std::env::args().skip(1).collect();
    if named.iter().any(|name| PARTS.iter().all(|(part, _)| part != name)) {
        eprintln!("the parts: {}", PARTS.map(|(part, _)| part).join(" "));
        std::process::exit(2);
    }
    println!("microseconds a call; both sides are release builds");
    for (part, f) in PARTS {
        if named.is_empty() || named.iter().any(|name| name == part) {
            f();
        }
    }
}
