//! Texts of kernels by docs/KERNELS.md: the tokens, the grammar with its levels and the rules, each stage a pass of its own over the text.

/// The line and the reason of a text's first fault.
pub type Fault = (u32, &'static str);

const RESERVED: [&str; 18] = [
    "array", "mutex", "main", "let", "atomic", "if", "else", "loop", "in", "parallel", "for", "nowait", "barrier", "critical", "static", "dynamic", "tid",
    "span",
];
const SIGNS: [&str; 21] =
    ["..", "==", "!=", "<=", ">=", "+=", "-=", "<", ">", "=", "+", "-", "*", "/", "%", "(", ")", "[", "]", "{", "}"];
const LEVELS: usize = 32;
pub const MOST_ELEMENTS: i64 = 1_048_576;

#[derive(Clone, Copy, PartialEq, Eq, Debug)]
enum Kind {
    Name,
    Number(i64),
    /// A reserved name or a sign.
    Fixed,
}

#[derive(Clone, Debug)]
struct Token {
    kind: Kind,
    text: String,
    line: u32,
}

#[derive(Clone, Debug)]
pub enum Expr {
    Number(i64),
    Variable(String, u32),
    Load(Element),
    Tid(u32),
    Span,
    Minus(Box<Expr>),
    /// An operation, with the line of its sign.
    Of(&'static str, u32, Box<(Expr, Expr)>),
}

/// An array's name before a bracket, with its line and its number among these in the text, and the index.
#[derive(Clone, Debug)]
pub struct Element {
    pub array: String,
    pub line: u32,
    pub site: u16,
    pub index: Box<Expr>,
}

#[derive(Clone, Debug)]
pub struct Block {
    pub body: Vec<Stmt>,
    pub end: u32,
}

#[derive(Clone, Debug)]
pub enum Schedule {
    Even,
    Static(i64, u32),
    Dynamic(i64, u32),
}

#[derive(Clone, Debug)]
pub struct Range {
    pub name: String,
    pub name_line: u32,
    pub low: Expr,
    pub high: Expr,
}

#[derive(Clone, Debug)]
pub enum Stmt {
    Let(String, u32, Expr),
    Set(String, u32, Expr),
    Store(Element, Expr),
    /// Whether the amount is subtracted comes last.
    Update(Element, Expr, bool),
    If(Expr, Block, Option<Block>),
    Loop(Range, Block),
    /// The line, the number of lanes with its line, and the body.
    Parallel(u32, (i64, u32), Block),
    For(For),
    Barrier(u32),
    Critical(u32, Option<String>, Block),
}

#[derive(Clone, Debug)]
pub struct For {
    /// The number of the loop in the text.
    pub number: usize,
    pub line: u32,
    pub range: Range,
    pub schedule: Schedule,
    pub waits: bool,
    pub block: Block,
}

#[derive(Clone, Debug)]
pub struct Array {
    pub name: String,
    pub size: u8,
    pub count: i64,
}

#[derive(Debug)]
pub struct Kernel {
    pub arrays: Vec<Array>,
    pub mutexes: Vec<String>,
    pub main: Block,
}

fn lines_before(text: &[u8]) -> u32 {
    1 + text.iter().filter(|byte| **byte == b'\n').count() as u32
}

// Tokens.

fn tokens(text: &str) -> Result<Vec<Token>, Fault> {
    let (mut tokens, mut at) = (Vec::new(), 0);
    while let Some(first) = text[at..].chars().next() {
        let (rest, line) = (&text[at..], lines_before(text[..at].as_bytes()));
        let run = |holds: fn(char) -> bool| rest.find(|letter| !holds(letter)).unwrap_or(rest.len());
        let is_letter = |letter: char| letter.is_ascii_alphanumeric() || letter == '_';
        let (kind, length) = if matches!(first, ' ' | '\t' | '\r' | '\n') {
            at += 1;
            continue;
        } else if first == '#' {
            at += run(|letter| letter != '\n');
            continue;
        } else if first.is_ascii_digit() {
            let length = run(|letter| letter.is_ascii_digit());
            (Kind::Number(rest[..length].parse().map_err(|_| (line, "Token"))?), length)
        } else if is_letter(first) {
            let length = run(is_letter);
            if length > 32 {
                return Err((line, "Token"));
            }
            (if RESERVED.contains(&&rest[..length]) { Kind::Fixed } else { Kind::Name }, length)
        } else {
            let sign = SIGNS.iter().find(|sign| rest.starts_with(**sign)).ok_or((line, "Token"))?;
            (Kind::Fixed, sign.len())
        };
        tokens.push(Token { kind, text: rest[..length].to_string(), line });
        at += length;
    }
    Ok(tokens)
}

// The grammar. Each function reads its phrase, and the first token that can't come next is the fault.

struct Parser {
    tokens: Vec<Token>,
    at: usize,
    /// The line of the text's end.
    last: u32,
    sites: u16,
    loops: usize,
}

impl Parser {
    fn line(&self) -> u32 {
        self.tokens.get(self.at).map_or(self.last, |token| token.line)
    }

    fn is(&self, text: &str) -> bool {
        self.tokens.get(self.at).is_some_and(|token| token.kind == Kind::Fixed && token.text == text)
    }

    fn fault<T>(&self) -> Result<T, Fault> {
        Err((self.line(), "Syntax"))
    }

    fn took(&mut self, text: &str) -> bool {
        let took = self.is(text);
        self.at += usize::from(took);
        took
    }

    fn need(&mut self, text: &str) -> Result<u32, Fault> {
        let line = self.line();
        if self.took(text) { Ok(line) } else { self.fault() }
    }

    fn is_name(&self) -> bool {
        self.tokens.get(self.at).is_some_and(|token| token.kind == Kind::Name)
    }

    fn name(&mut self) -> Result<(String, u32), Fault> {
        if !self.is_name() {
            return self.fault();
        }
        self.at += 1;
        let token = &self.tokens[self.at - 1];
        Ok((token.text.clone(), token.line))
    }

    fn number_here(&self) -> Option<i64> {
        match self.tokens.get(self.at)?.kind {
            Kind::Number(number) => Some(number),
            _ => None,
        }
    }

    fn number(&mut self) -> Result<(i64, u32), Fault> {
        let line = self.line();
        match self.number_here() {
            Some(number) => {
                self.at += 1;
                Ok((number, line))
            }
            None => self.fault(),
        }
    }

    fn deep(&self, level: usize) -> Result<(), Fault> {
        if level > LEVELS { Err((self.line(), "Deep")) } else { Ok(()) }
    }

    fn element(&mut self, (array, line): (String, u32), level: usize) -> Result<Element, Fault> {
        let site = self.sites;
        self.sites = self.sites.wrapping_add(1);
        self.need("[")?;
        let index = Box::new(self.expr(level)?);
        self.need("]")?;
        Ok(Element { array, line, site, index })
    }

    fn unary(&mut self, level: usize) -> Result<Expr, Fault> {
        let line = self.line();
        if let Some(number) = self.number_here() {
            self.at += 1;
            return Ok(Expr::Number(number));
        }
        if self.is("-") || self.is("(") {
            self.deep(level + 1)?;
        }
        if self.took("-") {
            return Ok(Expr::Minus(Box::new(self.unary(level + 1)?)));
        }
        if self.took("(") {
            let inner = self.expr(level + 1)?;
            self.need(")")?;
            return Ok(inner);
        }
        if self.took("tid") {
            return Ok(Expr::Tid(line));
        }
        if self.took("span") {
            return Ok(Expr::Span);
        }
        let name = self.name()?;
        if !self.is("[") {
            return Ok(Expr::Variable(name.0, name.1));
        }
        self.deep(level + 1)?;
        Ok(Expr::Load(self.element(name, level + 1)?))
    }

    /// Operands of one kind, grouped to the left.
    fn chain(&mut self, signs: &[&'static str], level: usize, operand: fn(&mut Self, usize) -> Result<Expr, Fault>) -> Result<Expr, Fault> {
        let mut left = operand(self, level)?;
        while let Some(sign) = signs.iter().find(|sign| self.is(sign)) {
            let line = self.need(sign)?;
            left = Expr::Of(sign, line, Box::new((left, operand(self, level)?)));
        }
        Ok(left)
    }

    fn sum(&mut self, level: usize) -> Result<Expr, Fault> {
        self.chain(&["+", "-"], level, |parser, level| parser.chain(&["*", "/", "%"], level, Self::unary))
    }

    fn expr(&mut self, level: usize) -> Result<Expr, Fault> {
        let left = self.sum(level)?;
        for sign in ["==", "!=", "<", "<=", ">", ">="] {
            if self.is(sign) {
                let line = self.need(sign)?;
                return Ok(Expr::Of(sign, line, Box::new((left, self.sum(level)?))));
            }
        }
        Ok(left)
    }

    fn block(&mut self, level: usize) -> Result<Block, Fault> {
        if self.is("{") {
            self.deep(level + 1)?;
        }
        self.need("{")?;
        let mut body = Vec::new();
        while !self.is("}") {
            body.push(self.stmt(level + 1)?);
        }
        Ok(Block { body, end: self.need("}")? })
    }

    fn range(&mut self) -> Result<Range, Fault> {
        let (name, name_line) = self.name()?;
        self.need("in")?;
        let low = self.expr(0)?;
        self.need("..")?;
        Ok(Range { name, name_line, low, high: self.expr(0)? })
    }

    fn schedule(&mut self) -> Result<Schedule, Fault> {
        let is_static = self.is("static");
        if !self.took("static") && !self.took("dynamic") {
            return Ok(Schedule::Even);
        }
        let line = self.line();
        let chunk = self.number_here();
        self.at += usize::from(chunk.is_some());
        Ok(match (is_static, chunk) {
            (true, None) => Schedule::Even,
            (true, Some(chunk)) => Schedule::Static(chunk, line),
            (false, chunk) => Schedule::Dynamic(chunk.unwrap_or(1), line),
        })
    }

    fn stmt(&mut self, level: usize) -> Result<Stmt, Fault> {
        let line = self.line();
        if self.is_name() {
            let name = self.name()?;
            if self.is("[") {
                let element = self.element(name, 0)?;
                self.need("=")?;
                return Ok(Stmt::Store(element, self.expr(0)?));
            }
            self.need("=")?;
            return Ok(Stmt::Set(name.0, name.1, self.expr(0)?));
        }
        if self.took("let") {
            let (name, line) = self.name()?;
            self.need("=")?;
            return Ok(Stmt::Let(name, line, self.expr(0)?));
        }
        if self.took("atomic") {
            let name = self.name()?;
            let element = self.element(name, 0)?;
            let minus = self.is("-=");
            if !self.took("+=") && !self.took("-=") {
                return self.fault();
            }
            return Ok(Stmt::Update(element, self.expr(0)?, minus));
        }
        if self.took("if") {
            let (test, then) = (self.expr(0)?, self.block(level)?);
            let other = if self.took("else") { Some(self.block(level)?) } else { None };
            return Ok(Stmt::If(test, then, other));
        }
        if self.took("loop") {
            return Ok(Stmt::Loop(self.range()?, self.block(level)?));
        }
        if self.took("parallel") {
            return Ok(Stmt::Parallel(line, self.number()?, self.block(level)?));
        }
        if self.took("for") {
            let number = self.loops;
            self.loops += 1;
            let (range, schedule) = (self.range()?, self.schedule()?);
            let waits = !self.took("nowait");
            return Ok(Stmt::For(For { number, line, range, schedule, waits, block: self.block(level)? }));
        }
        if self.took("barrier") {
            return Ok(Stmt::Barrier(line));
        }
        self.need("critical")?;
        let name = if self.is_name() { Some(self.name()?.0) } else { None };
        Ok(Stmt::Critical(line, name, self.block(level)?))
    }
}

// The rules, in the order of the text.

fn fail<T>(line: u32, why: &'static str) -> Result<T, Fault> {
    Err((line, why))
}

/// What a statement of a region is in.
#[derive(Clone)]
struct Place {
    regions: usize,
    lanes: i64,
    in_for: bool,
    /// The numbers of the mutexes of the critical sections around it.
    held: Vec<usize>,
    /// Whether an `if` or a loop that isn't fixed is around it, in its region.
    is_uneven: bool,
}

struct Rules {
    arrays: Vec<Array>,
    mutexes: Vec<String>,
    /// The variables in scope, and whether each one is that of a `let`.
    scope: Vec<(String, bool)>,
}

/// The number that a bound of a fixed loop is.
fn fixed(bound: &Expr) -> Option<i64> {
    match bound {
        Expr::Number(number) => Some(*number),
        Expr::Minus(inner) => match **inner {
            Expr::Number(number) => Some(-number),
            _ => None,
        },
        _ => None,
    }
}

fn turns(range: &Range) -> Option<i128> {
    Some((i128::from(fixed(&range.high)?) - i128::from(fixed(&range.low)?)).max(0))
}

/// Whether a worksharing loop or a barrier of this region is in the block.
fn meets(block: &Block) -> bool {
    block.body.iter().any(|stmt| match stmt {
        Stmt::For(_) | Stmt::Barrier(_) => true,
        Stmt::Loop(_, body) | Stmt::Critical(_, _, body) => meets(body),
        Stmt::If(_, then, other) => meets(then) || other.as_ref().is_some_and(meets),
        _ => false,
    })
}

fn weight(block: &Block) -> i128 {
    let weights = block.body.iter().map(|stmt| match stmt {
        Stmt::Loop(range, body) if meets(body) => turns(range).map_or(1, |turns| turns.saturating_mul(weight(body) + 1)),
        _ => 1,
    });
    weights.sum::<i128>().min(1 << 70)
}

impl Rules {
    fn is_taken(&self, name: &str) -> bool {
        self.arrays.iter().any(|array| array.name == name) || self.mutexes.iter().any(|mutex| mutex == name) || self.variable(name).is_some()
    }

    fn variable(&self, name: &str) -> Option<bool> {
        self.scope.iter().find(|(other, _)| other == name).map(|(_, is_let)| *is_let)
    }

    fn new_name(&self, name: &str, line: u32) -> Result<(), Fault> {
        if self.is_taken(name) { fail(line, "Twice") } else { Ok(()) }
    }

    /// An element in a bound of a worksharing loop or elsewhere.
    fn element(&self, element: &Element, in_bound: bool) -> Result<(), Fault> {
        if !self.arrays.iter().any(|array| array.name == element.array) {
            return fail(element.line, "Unknown");
        }
        if in_bound {
            return fail(element.line, "NotUniform");
        }
        self.expr(&element.index, false)
    }

    fn expr(&self, expr: &Expr, in_bound: bool) -> Result<(), Fault> {
        match expr {
            Expr::Number(_) | Expr::Span => Ok(()),
            Expr::Tid(line) => if in_bound { fail(*line, "NotUniform") } else { Ok(()) },
            Expr::Variable(name, line) => match self.variable(name) {
                None => fail(*line, "Unknown"),
                Some(true) if in_bound => fail(*line, "NotUniform"),
                _ => Ok(()),
            },
            Expr::Load(element) => self.element(element, in_bound),
            Expr::Minus(inner) => self.expr(inner, in_bound),
            Expr::Of(sign, line, sides) => {
                self.expr(&sides.0, in_bound)?;
                if in_bound && !matches!(*sign, "+" | "-" | "*") {
                    return fail(*line, "NotUniform");
                }
                self.expr(&sides.1, in_bound)
            }
        }
    }

    fn body(&mut self, block: &Block, place: &Place) -> Result<(), Fault> {
        let before = self.scope.len();
        for stmt in &block.body {
            self.stmt(stmt, place)?;
        }
        self.scope.truncate(before);
        Ok(())
    }

    fn with_variable(&mut self, name: &str, block: &Block, place: &Place) -> Result<(), Fault> {
        self.scope.push((name.to_string(), false));
        self.body(block, place)?;
        self.scope.pop();
        Ok(())
    }

    fn stmt(&mut self, stmt: &Stmt, place: &Place) -> Result<(), Fault> {
        let uneven = Place { is_uneven: true, ..place.clone() };
        match stmt {
            Stmt::Let(name, line, value) => {
                self.new_name(name, *line)?;
                self.expr(value, false)?;
                self.scope.push((name.clone(), true));
                Ok(())
            }
            Stmt::Set(name, line, value) => {
                if self.variable(name) != Some(true) {
                    return fail(*line, "Unknown");
                }
                self.expr(value, false)
            }
            Stmt::Store(element, value) | Stmt::Update(element, value, _) => {
                self.element(element, false)?;
                self.expr(value, false)
            }
            Stmt::If(test, then, other) => {
                self.expr(test, false)?;
                self.body(then, &uneven)?;
                other.as_ref().map_or(Ok(()), |other| self.body(other, &uneven))
            }
            Stmt::Loop(range, block) => {
                self.range(range, false)?;
                self.with_variable(&range.name, block, if turns(range).is_some() { place } else { &uneven })
            }
            Stmt::Parallel(line, lanes, block) => self.region(*line, *lanes, block, place),
            Stmt::For(share) => self.share(share, place),
            Stmt::Barrier(line) => self.meeting(*line, "BarrierHere", place),
            Stmt::Critical(line, name, block) => self.section(*line, name, block, place),
        }
    }

    fn range(&self, range: &Range, in_bound: bool) -> Result<(), Fault> {
        self.new_name(&range.name, range.name_line)?;
        self.expr(&range.low, in_bound)?;
        self.expr(&range.high, in_bound)
    }

    fn meeting(&self, line: u32, why: &'static str, place: &Place) -> Result<(), Fault> {
        if place.regions == 0 || place.in_for || !place.held.is_empty() {
            return fail(line, why);
        }
        if place.is_uneven { fail(line, "NotUniform") } else { Ok(()) }
    }

    fn share(&mut self, share: &For, place: &Place) -> Result<(), Fault> {
        self.meeting(share.line, "WorkHere", place)?;
        self.range(&share.range, true)?;
        if let Schedule::Static(chunk, line) | Schedule::Dynamic(chunk, line) = share.schedule {
            if !(1..=MOST_ELEMENTS).contains(&chunk) {
                return fail(line, "Count");
            }
        }
        self.with_variable(&share.range.name, &share.block, &Place { in_for: true, ..place.clone() })
    }

    fn region(&mut self, line: u32, (lanes, lanes_line): (i64, u32), block: &Block, place: &Place) -> Result<(), Fault> {
        if !place.held.is_empty() {
            return fail(line, "ParallelHere");
        }
        if place.regions == 4 {
            return fail(line, "Deep");
        }
        if !(1..=64).contains(&lanes) {
            return fail(lanes_line, "Count");
        }
        let all = place.lanes * lanes;
        if all > 64 {
            return fail(lanes_line, "Large");
        }
        self.body(block, &Place { regions: place.regions + 1, lanes: all, in_for: false, held: Vec::new(), is_uneven: false })?;
        if weight(block) > 65_536 { fail(block.end, "Large") } else { Ok(()) }
    }

    fn section(&mut self, line: u32, name: &Option<String>, block: &Block, place: &Place) -> Result<(), Fault> {
        let Some(mutex) = mutex_number(&self.mutexes, name) else {
            return fail(line, "Unknown");
        };
        if place.held.last().is_some_and(|outer| *outer >= mutex) {
            return fail(line, "CriticalOrder");
        }
        if place.held.len() == 8 {
            return fail(line, "Deep");
        }
        let mut inside = place.clone();
        inside.held.push(mutex);
        self.body(block, &inside)
    }
}

/// The number of a mutex in logs: the unnamed one is 0.
pub fn mutex_number(mutexes: &[String], name: &Option<String>) -> Option<usize> {
    match name {
        None => Some(0),
        Some(name) => mutexes.iter().position(|other| other == name).map(|place| place + 1),
    }
}

/// The arrays and mutexes with the lines of their names, widths and counts, and the body of `main`.
type Declared = (Vec<(Option<(String, u32, i64, u32)>, String, u32)>, Block);

fn parse(parser: &mut Parser) -> Result<Declared, Fault> {
    let mut declared = Vec::new();
    loop {
        if parser.took("array") {
            let ((name, line), (width, width_line), (count, count_line)) = (parser.name()?, parser.name()?, parser.number()?);
            declared.push((Some((width, width_line, count, count_line)), name, line));
        } else if parser.took("mutex") {
            let (name, line) = parser.name()?;
            declared.push((None, name, line));
        } else {
            break;
        }
    }
    parser.need("main")?;
    let main = parser.block(0)?;
    if parser.at < parser.tokens.len() { parser.fault() } else { Ok((declared, main)) }
}

fn declare(rules: &mut Rules, (array, name, line): &(Option<(String, u32, i64, u32)>, String, u32)) -> Result<(), Fault> {
    rules.new_name(name, *line)?;
    let Some((width, width_line, count, count_line)) = array else {
        if rules.mutexes.len() == 63 {
            return fail(*line, "Large");
        }
        rules.mutexes.push(name.clone());
        return Ok(());
    };
    if rules.arrays.len() == 64 {
        return fail(*line, "Large");
    }
    let widths = [("i8", 1), ("i16", 2), ("i32", 4), ("i64", 8)];
    let Some((_, size)) = widths.iter().find(|(name, _)| name == width) else {
        return fail(*width_line, "Width");
    };
    if !(1..=MOST_ELEMENTS).contains(count) {
        return fail(*count_line, "Count");
    }
    if rules.arrays.iter().map(|array| array.count).sum::<i64>() + count > MOST_ELEMENTS {
        return fail(*count_line, "Large");
    }
    rules.arrays.push(Array { name: name.clone(), size: *size, count: *count });
    Ok(())
}

/// The kernel of a text, or its first fault.
pub fn read_kernel(bytes: &[u8]) -> Result<Kernel, Fault> {
    if bytes.len() > 65_536 {
        return fail(1, "Large");
    }
    let text = std::str::from_utf8(bytes).map_err(|fault| (lines_before(&bytes[..fault.valid_up_to()]), "NotUtf8"))?;
    let mut parser = Parser { tokens: tokens(text)?, at: 0, last: lines_before(bytes), sites: 0, loops: 0 };
    let (declared, main) = parse(&mut parser)?;
    let mut rules = Rules { arrays: Vec::new(), mutexes: Vec::new(), scope: Vec::new() };
    for name in &declared {
        declare(&mut rules, name)?;
    }
    let outside = Place { regions: 0, lanes: 1, in_for: false, held: Vec::new(), is_uneven: false };
    rules.body(&main, &outside)?;
    Ok(Kernel { arrays: rules.arrays, mutexes: rules.mutexes, main })
}
