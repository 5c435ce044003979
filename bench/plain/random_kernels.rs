//! Random texts of small kernels, and texts in which something was changed.
use crate::folders::Random;

const NUMBERS: [&str; 14] =
    ["0", "1", "2", "3", "8", "33", "64", "65", "127", "300", "70000", "4294967296", "9223372036854775807", "9223372036854775808"];
const WORDS: [&str; 45] = [
    "array", "mutex", "main", "let", "atomic", "if", "else", "loop", "in", "parallel", "for", "nowait", "barrier", "critical", "static", "dynamic", "tid",
    "span", "i8", "i16", "i32", "i64", "i7", "..", "==", "!=", "<=", ">=", "+=", "-=", "<", ">", "=", "+", "-", "*", "/", "%", "(", ")", "[", "]", "{",
    "}", "zz",
];

#[derive(Clone)]
struct Variable {
    name: String,
    is_let: bool,
    /// A bound that its values, from 0 on, are below, if there is one.
    below: Option<u64>,
}

/// Where a statement stands.
#[derive(Clone)]
struct Place {
    depth: u64,
    span: u64,
    regions: usize,
    lanes: u64,
    /// Whether worksharing loops and barriers may be here.
    meets: bool,
    /// The mutexes below this number are those of sections around.
    mutex: u64,
    /// How many times a statement here runs at most, in one task.
    turns: u64,
}

struct Maker<'a> {
    random: &'a mut Random,
    words: Vec<String>,
    arrays: Vec<(String, u64)>,
    mutexes: u64,
    scope: Vec<Variable>,
    fresh: u64,
    left: u64,
    /// How rarely something may stop a task.
    rarely: u64,
    /// Whether it has no construct by which the order of lanes decides more than what they read.
    is_fixed: bool,
}

impl Maker<'_> {
    fn say(&mut self, text: &str) {
        self.words.extend(text.split_whitespace().map(str::to_string));
    }

    fn pick(&mut self, bound: u64) -> u64 {
        self.random.below(bound.max(1))
    }

    fn new_name(&mut self) -> String {
        self.fresh += 1;
        format!("v{}", self.fresh)
    }

    /// An index that is mostly inside an array of so many elements.
    fn index(&mut self, count: u64, place: &Place) {
        let inside: Vec<String> =
            self.scope.iter().filter(|variable| variable.below.is_some_and(|below| below <= count)).map(|variable| variable.name.clone()).collect();
        let rarely = self.rarely;
        if self.is_fixed && place.span <= count && self.pick(8) > 0 {
            return self.say("tid");
        }
        match self.pick(8) {
            _ if self.pick(rarely) == 0 => match self.pick(3) {
                0 => self.say("- 1"),
                1 => self.say(&count.to_string()),
                _ => self.expr(1, place),
            },
            0..=2 if !inside.is_empty() => {
                let name = inside[self.pick(inside.len() as u64) as usize].clone();
                self.say(&name);
            }
            3 if place.span <= count => self.say("tid"),
            4 => self.say(&format!("( tid + {} ) % {count}", place.depth)),
            5 => {
                let known: Vec<String> = self.scope.iter().filter(|variable| variable.below.is_some()).map(|variable| variable.name.clone()).collect();
                let name = if known.is_empty() { "tid".to_string() } else { known[self.pick(known.len() as u64) as usize].clone() };
                self.say(&format!("( {name} + {} ) % {count}", place.regions));
            }
            _ => {
                let index = self.pick(count.min(3)).to_string();
                self.say(&index);
            }
        }
    }

    fn load(&mut self, place: &Place) {
        let (name, count) = self.array();
        self.say(&format!("{name} ["));
        self.index(count, place);
        self.say("]");
    }

    fn array(&mut self) -> (String, u64) {
        let number = self.pick(self.arrays.len() as u64) as usize;
        self.arrays[number].clone()
    }

    fn expr(&mut self, depth: u64, place: &Place) {
        match self.pick(if depth == 0 { 6 } else { 10 }) {
            0 | 1 => {
                let number = if self.pick(6) == 0 { NUMBERS[self.random.below(13) as usize].to_string() } else { self.pick(5).to_string() };
                self.say(&number);
            }
            2 if !self.scope.is_empty() => {
                let number = self.pick(self.scope.len() as u64) as usize;
                let name = self.scope[number].name.clone();
                self.say(&name);
            }
            2 => self.say("span"),
            3 => self.say("tid"),
            4 | 5 => self.load(place),
            6 => {
                self.say("-");
                self.expr(0, place);
            }
            7 => {
                self.say("(");
                self.expr(depth - 1, place);
                let sign = ["==", "!=", "<", "<=", ">", ">=", "+", "-"][self.pick(8) as usize];
                self.say(sign);
                self.expr(depth - 1, place);
                self.say(")");
            }
            8 => {
                self.expr(depth - 1, place);
                let sign = ["/", "%"][self.pick(2) as usize];
                self.say(sign);
                let rarely = self.rarely;
                let divisor = ["2", "3", "( 0 - 2 )", "span"][self.pick(4) as usize];
                if self.pick(rarely) == 0 { self.expr(0, place) } else { self.say(divisor) }
            }
            _ => {
                self.expr(depth - 1, place);
                let sign = ["+", "-", "*"][self.pick(3) as usize];
                self.say(sign);
                self.expr(depth - 1, place);
            }
        }
    }

    fn block(&mut self, most: u64, place: &Place) {
        self.say("{");
        let before = self.scope.len();
        for _ in 0..self.pick(most) + u64::from(most > 1) {
            self.stmt(place);
        }
        self.scope.truncate(before);
        self.say("}");
    }

    fn with_variable(&mut self, name: String, below: Option<u64>, most: u64, place: &Place) {
        self.scope.push(Variable { name, is_let: false, below });
        self.block(most, place);
        self.scope.pop();
    }

    fn stmt(&mut self, place: &Place) {
        if self.left == 0 || place.turns > 40 {
            return self.store(place);
        }
        self.left -= 1;
        let inner = Place { depth: place.depth + 1, ..place.clone() };
        match self.pick(20) {
            0 | 1 => self.assign(place),
            2 | 3 if !self.is_fixed => self.update(place),
            4 => {
                self.say("if");
                self.expr(1, place);
                self.block(3, &Place { meets: false, ..inner.clone() });
                if self.pick(2) == 0 {
                    self.say("else");
                    self.block(2, &Place { meets: false, ..inner });
                }
            }
            5 | 6 => self.turns(inner),
            7..=9 if place.regions < 3 && place.mutex == 0 && place.lanes <= 4 => self.region(inner),
            10..=12 if place.meets => self.share(inner),
            13 if place.meets => self.say("barrier"),
            14 | 15 if place.mutex <= self.mutexes && !self.is_fixed => self.section(inner),
            _ => self.store(place),
        }
    }

    fn store(&mut self, place: &Place) {
        self.load(place);
        self.say("=");
        self.expr(2, place);
    }

    fn update(&mut self, place: &Place) {
        self.say("atomic");
        self.load(place);
        let sign = ["+=", "-="][self.pick(2) as usize];
        self.say(sign);
        self.expr(1, place);
    }

    fn assign(&mut self, place: &Place) {
        let lets: Vec<String> = self.scope.iter().filter(|variable| variable.is_let).map(|variable| variable.name.clone()).collect();
        if !lets.is_empty() && self.pick(2) == 0 {
            let name = lets[self.pick(lets.len() as u64) as usize].clone();
            self.say(&format!("{name} ="));
            return self.expr(2, place);
        }
        let name = self.new_name();
        self.say(&format!("let {name} ="));
        self.expr(2, place);
        self.scope.push(Variable { name, is_let: true, below: None });
    }

    fn turns(&mut self, mut place: Place) {
        let (name, count) = (self.new_name(), self.pick(4));
        let (text, below, is_fixed) = match self.pick(6) {
            0 => (format!("tid .. {count}"), Some(count), false),
            1 => (format!("- ( 1 ) .. {count}"), None, true),
            2 => (format!("0 .. ( span + {count} ) % 4"), Some(4), false),
            _ => (format!("0 .. ( {count} )"), Some(count), true),
        };
        place.turns *= 4;
        place.meets &= is_fixed;
        self.say(&format!("loop {name} in {text}"));
        self.with_variable(name, below, 3, &place);
    }

    fn region(&mut self, mut place: Place) {
        let lanes = 1 + self.pick(if place.regions > 0 { 2 } else { 4 });
        (place.span, place.lanes, place.regions, place.meets) = (lanes, place.lanes * lanes, place.regions + 1, true);
        self.say(&format!("parallel {lanes}"));
        self.block(5, &place);
    }

    fn share(&mut self, mut place: Place) {
        let (name, count) = (self.new_name(), self.pick(7));
        let fixed: Vec<String> = self.scope.iter().filter(|variable| !variable.is_let).map(|variable| variable.name.clone()).collect();
        let (text, below) = match self.pick(5) {
            0 => (format!("- 2 .. {}", count / 2), None),
            1 => (format!("0 .. span * {}", 1 + count / 3), Some(place.span * (1 + count / 3))),
            2 if !fixed.is_empty() => {
                let of = &fixed[self.random.below(fixed.len() as u64) as usize];
                (format!("{of} .. {of} + {}", count / 2), None)
            }
            _ => (format!("0 .. {count}"), Some(count)),
        };
        self.say(&format!("for {name} in {text}"));
        let schedule = ["", "static", "static 1", "static 2", "dynamic", "dynamic 1", "dynamic 2", "dynamic 3"][self.pick(if self.is_fixed { 4 } else { 8 }) as usize];
        self.say(schedule);
        if self.pick(3) == 0 {
            self.say("nowait");
        }
        place.turns *= 3;
        place.meets = false;
        self.with_variable(name, below, 3, &place);
    }

    fn section(&mut self, mut place: Place) {
        let mutex = place.mutex + self.pick(self.mutexes + 1 - place.mutex);
        (place.mutex, place.meets) = (mutex + 1, false);
        let name = if mutex == 0 { String::new() } else { format!("m{mutex}") };
        self.say(&format!("critical {name}"));
        self.block(3, &place);
    }
}

/// The words of a kernel.
fn words(random: &mut Random) -> Vec<String> {
    let rarely = [20, 400, 400, 100_000][random.below(4) as usize];
    let left = 4 + random.below(14);
    let is_fixed = random.is_one_in(3);
    let mut maker = Maker { random, words: Vec::new(), arrays: Vec::new(), mutexes: 0, scope: Vec::new(), fresh: 0, left, rarely, is_fixed };
    for number in 0..1 + maker.pick(3) {
        let (name, count) = (format!("a{number}"), 1 + maker.pick(6));
        let width = ["i8", "i16", "i32", "i64", "i64"][maker.pick(5) as usize];
        maker.say(&format!("array {name} {width} {count}"));
        maker.arrays.push((name, count));
    }
    for number in 1..=maker.pick(3) {
        maker.say(&format!("mutex m{number}"));
        maker.mutexes = number;
    }
    maker.say("main {");
    let place = Place { depth: 0, span: 1, regions: 0, lanes: 1, meets: false, mutex: 0, turns: 1 };
    for _ in 0..1 + maker.pick(3) {
        maker.stmt(&place);
        if maker.pick(3) > 0 {
            maker.region(place.clone());
        }
    }
    maker.say("}");
    maker.words
}

fn spell(random: &mut Random, words: &[String]) -> Vec<u8> {
    let ends = 2 + random.below(6);
    let mut text = String::new();
    for word in words {
        text.push_str(word);
        text.push_str(match random.below(40) {
            0 => " # a word = { \u{e9}\n",
            1 => "\t",
            2 => "\r\n",
            3 => "\n\n",
            _ if random.is_one_in(ends) => "\n",
            _ => " ",
        });
    }
    text.into_bytes()
}

pub fn kernel(random: &mut Random) -> Vec<u8> {
    let words = words(random);
    spell(random, &words)
}

fn change_word(random: &mut Random, words: &mut Vec<String>) {
    let (at, other) = (random.below(words.len() as u64) as usize, random.below(words.len() as u64) as usize);
    let new = match random.below(4) {
        0 => NUMBERS[random.below(14) as usize].to_string(),
        1 => WORDS[random.below(45) as usize].to_string(),
        _ => words[other].clone(),
    };
    match random.below(6) {
        0 => drop(words.remove(at)),
        1 => words.insert(at, words[at].clone()),
        2 => words.swap(at, other),
        3 => words.insert(at, new),
        4 if random.is_one_in(6) => {
            let sign = ["-", "(", "{", "a0 [", "if 1 {", "loop q in 0 .. 1 {", "critical {", "parallel 1 {"][random.below(8) as usize];
            let many = 1 + random.below(34) as usize;
            words.splice(at..at, vec![sign.to_string(); many]);
        }
        _ => words[at] = new,
    }
}

fn change_byte(random: &mut Random, text: &mut Vec<u8>) {
    let at = random.below(text.len() as u64) as usize;
    let other = random.below(text.len() as u64) as usize;
    match random.below(6) {
        0 => drop(text.remove(at)),
        1 => text.insert(at, text[at]),
        2 => text.swap(at, other),
        3 => text.truncate(at),
        4 => text[at] = [0, 9, 10, 11, 12, 13, b'.', b'!', b'_', b'#', b'0', 127, 128, 0xc3, 0xe2, 0xff][random.below(16) as usize],
        _ => {
            let put = ["\u{e9}", "\u{2028}", "\u{1f600}", "123456789012345678901234567890", "a_name_that_is_more_than_32_bytes", "0x1", "..."];
            text.splice(at..at, put[random.below(7) as usize].bytes());
        }
    }
    if text.is_empty() {
        text.push(b' ');
    }
}

const STATEMENTS: [&str; 24] = [
    "barrier",
    "if tid { barrier }",
    "loop q in 0 .. ( 2 ) { barrier }",
    "loop q in tid .. 2 { barrier }",
    "loop q in 0 .. - - 2 { for r in 0 .. 1 { } }",
    "loop q in 0 .. 32767 { loop r in ( - ( 1 ) ) .. 1 { barrier } barrier }",
    "loop q in 0 .. 21845 { barrier for r in q .. q + 2 nowait { } } barrier",
    "for q in 0 .. 4 static 0 { }",
    "for q in v1 .. 4 dynamic 1048577 { }",
    "for q in 0 .. span / 2 { }",
    "for q in a0 [ 0 ] .. 4 { }",
    "for v1 in 0 .. 4 { }",
    "for q in 0 .. 1 < 2 { barrier }",
    "critical { }",
    "critical m1 { critical { } }",
    "critical { critical m1 { critical m2 { } } }",
    "critical m9 { parallel 2 { } }",
    "critical { barrier }",
    "parallel 0 { }",
    "parallel 64 { }",
    "parallel 1 { parallel 1 { parallel 1 { parallel 1 { parallel 1 { } } } } }",
    "let v1 = 1 let v1 = q",
    "v1 = 2",
    "let a0 = 1",
];

/// Changes a word for another of its kind, or puts a statement where one may stand.
fn change_meaning(random: &mut Random, words: &mut Vec<String>) {
    let kind = |word: &str| match word.as_bytes()[0] {
        first if first.is_ascii_digit() => 0,
        b'v' | b'm' | b'a' if word.len() < 4 && word != "mul" => 1,
        b'+' | b'-' | b'*' | b'/' | b'%' | b'<' => 2,
        _ => 3,
    };
    let ends: Vec<usize> = (1..words.len()).filter(|at| matches!(words[at - 1].as_str(), "{" | "}")).collect();
    if random.is_one_in(2) && !ends.is_empty() {
        let at = ends[random.below(ends.len() as u64) as usize];
        let statement = STATEMENTS[random.below(24) as usize];
        words.splice(at..at, statement.split(' ').map(str::to_string));
        return;
    }
    let known: Vec<usize> = (0..words.len()).filter(|at| kind(&words[*at]) < 3).collect();
    let at = known[random.below(known.len() as u64) as usize];
    let alike: Vec<usize> = known.iter().copied().filter(|other| kind(&words[*other]) == kind(&words[at])).collect();
    let other = alike[random.below(alike.len() as u64) as usize];
    words[at] = if kind(&words[at]) == 0 && random.is_one_in(2) { NUMBERS[random.below(14) as usize].to_string() } else { words[other].clone() };
}

/// A text of a kernel in which something was changed, and which perhaps isn't one.
pub fn changed(random: &mut Random) -> Vec<u8> {
    let mut words = words(random);
    let (by_meaning, by_words) = (random.below(5) > 1, random.below(4) > 0);
    for _ in 0..1 + random.below(2) {
        if by_meaning {
            change_meaning(random, &mut words);
        } else if by_words {
            change_word(random, &mut words);
        }
    }
    let mut text = spell(random, &words);
    if !by_meaning && !by_words {
        (0..1 + random.below(2)).for_each(|_| change_byte(random, &mut text));
    }
    if random.is_one_in(200) {
        text.push(b'#');
        text.resize(65_535 + random.below(3) as usize, b'x');
    }
    text
}
