// A reader and a printer of plans in plain Rust, to compare with the proved ones: by speed, and by what they accept.
//
//     text N        reads and prints the texts of the benchmark N times each, and writes megabytes a second
//     text sizes    reads and prints each of them once, and writes sizes only
//     text table    answers a table of texts from standard input: NAME plan SIZE, or NAME no
use std::fmt::Write;
use std::io::BufRead;
use std::time::Instant;

const LONGEST_TEXT: usize = 65536;
const MOST_SIZE: usize = 4096;
const MOST_BRACKETS: usize = 256;

#[derive(Clone, Copy, PartialEq, Debug)]
enum Token<'a> {
    Number(u64),
    Variable(u8),
    Name(&'a str),
    Word(&'static str),
    Sign(u8),
    End,
}

const WORDS: [&str; 14] = [
    "set", "do", "tries", "pause", "sleep", "hear", "for", "if", "else", "while", "guard", "return", "fail", "not",
];

enum Expr {
    Number(u64),
    Variable(u8),
    Not(Box<Expr>),
    Binary(u8, Box<Expr>, Box<Expr>),
}

enum Stmt {
    Set(u8, Expr),
    Do { var: u8, kind: u32, args: Vec<Expr>, tries: u8, pause: u32 },
    Sleep(Expr),
    Hear { var: u8, other: u8, name: String, wait: Expr },
    If(Expr, Vec<Stmt>, Vec<Stmt>),
    While(Expr, Vec<Stmt>),
    Guard(Vec<Stmt>, Vec<Stmt>),
    Return(Expr),
    Fail,
}

// Where a text was found to be no plan.
#[derive(Debug)]
#[allow(dead_code)]
struct Refused(usize);

struct Reader<'a> {
    text: &'a [u8],
    // behind the token at hand
    pos: usize,
    // where the token at hand begins
    start: usize,
    token: Token<'a>,
    size: usize,
}

fn word_token(word: &str) -> Option<Token<'_>> {
    let bytes = word.as_bytes();
    if bytes[0].is_ascii_digit() {
        if !bytes.iter().all(u8::is_ascii_digit) {
            return None;
        }
        return word.parse().ok().map(Token::Number);
    }
    if bytes[0] == b'v' && bytes.len() > 1 && bytes[1].is_ascii_digit() {
        let digits = &bytes[1..];
        if digits.len() > 2 || !digits.iter().all(u8::is_ascii_digit) || (digits.len() == 2 && digits[0] == b'0') {
            return None;
        }
        let n = digits.iter().fold(0, |n, d| n * 10 + (d - b'0'));
        return if n < 64 { Some(Token::Variable(n)) } else { None };
    }
    if let Some(w) = WORDS.iter().find(|w| **w == word) {
        return Some(Token::Word(w));
    }
    if bytes.len() <= 64 && bytes.iter().all(u8::is_ascii_lowercase) {
        return Some(Token::Name(word));
    }
    None
}

impl<'a> Reader<'a> {
    fn new(text: &'a [u8]) -> Result<Self, Refused> {
        if text.len() > LONGEST_TEXT {
            return Err(Refused(LONGEST_TEXT));
        }
        let mut reader = Reader { text, pos: 0, start: 0, token: Token::End, size: 0 };
        reader.advance()?;
        Ok(reader)
    }

    fn refuse<T>(&self) -> Result<T, Refused> {
        Err(Refused(self.start))
    }

    fn advance(&mut self) -> Result<(), Refused> {
        let text = self.text;
        let mut pos = self.pos;
        while pos < text.len() {
            match text[pos] {
                b' ' | b'\t' | b'\r' | b'\n' => pos += 1,
                b'#' => {
                    while pos < text.len() && text[pos] != b'\n' {
                        pos += 1;
                    }
                }
                _ => break,
            }
        }
        self.start = pos;
        if pos == text.len() {
            self.pos = pos;
            self.token = Token::End;
            return Ok(());
        }
        let first = text[pos];
        if first.is_ascii_alphanumeric() {
            while pos < text.len() && text[pos].is_ascii_alphanumeric() {
                pos += 1;
            }
            let word = std::str::from_utf8(&text[self.start..pos]).unwrap();
            self.pos = pos;
            match word_token(word) {
                Some(token) => self.token = token,
                None => return self.refuse(),
            }
            return Ok(());
        }
        if !b"+-*<=(){},".contains(&first) {
            return self.refuse();
        }
        self.pos = pos + 1;
        self.token = Token::Sign(first);
        Ok(())
    }

    fn grow(&mut self, by: usize) -> Result<(), Refused> {
        self.size += by;
        if self.size > MOST_SIZE { self.refuse() } else { Ok(()) }
    }

    fn sign(&mut self, sign: u8) -> Result<(), Refused> {
        if self.token != Token::Sign(sign) {
            return self.refuse();
        }
        self.advance()
    }

    fn word(&mut self, word: &str) -> Result<(), Refused> {
        match self.token {
            Token::Word(w) if w == word => self.advance(),
            _ => self.refuse(),
        }
    }

    fn number(&mut self, least: u64, most: u64) -> Result<u64, Refused> {
        match self.token {
            Token::Number(n) if least <= n && n <= most => {
                self.advance()?;
                Ok(n)
            }
            _ => self.refuse(),
        }
    }

    fn variable(&mut self) -> Result<u8, Refused> {
        match self.token {
            Token::Variable(v) => {
                self.advance()?;
                Ok(v)
            }
            _ => self.refuse(),
        }
    }

    fn expr(&mut self, depth: usize) -> Result<Expr, Refused> {
        let mut left = self.sum(depth)?;
        while let Token::Sign(op @ (b'<' | b'=')) = self.token {
            self.grow(1)?;
            self.advance()?;
            left = Expr::Binary(op, Box::new(left), Box::new(self.sum(depth)?));
        }
        Ok(left)
    }

    fn sum(&mut self, depth: usize) -> Result<Expr, Refused> {
        let mut left = self.product(depth)?;
        while let Token::Sign(op @ (b'+' | b'-')) = self.token {
            self.grow(1)?;
            self.advance()?;
            left = Expr::Binary(op, Box::new(left), Box::new(self.product(depth)?));
        }
        Ok(left)
    }

    fn product(&mut self, depth: usize) -> Result<Expr, Refused> {
        let mut left = self.unary(depth)?;
        while self.token == Token::Sign(b'*') {
            self.grow(1)?;
            self.advance()?;
            left = Expr::Binary(b'*', Box::new(left), Box::new(self.unary(depth)?));
        }
        Ok(left)
    }

    fn unary(&mut self, depth: usize) -> Result<Expr, Refused> {
        match self.token {
            Token::Number(n) => {
                self.grow(1)?;
                self.advance()?;
                Ok(Expr::Number(n))
            }
            Token::Variable(v) => {
                self.grow(1)?;
                self.advance()?;
                Ok(Expr::Variable(v))
            }
            Token::Word("not") => {
                self.grow(1)?;
                self.advance()?;
                Ok(Expr::Not(Box::new(self.unary(depth)?)))
            }
            Token::Sign(b'(') => {
                if depth == MOST_BRACKETS {
                    return self.refuse();
                }
                self.advance()?;
                let inner = self.expr(depth + 1)?;
                self.sign(b')')?;
                Ok(inner)
            }
            _ => self.refuse(),
        }
    }

    fn arguments(&mut self) -> Result<Vec<Expr>, Refused> {
        let mut args = Vec::new();
        self.sign(b'(')?;
        if self.token != Token::Sign(b')') {
            args.push(self.expr(0)?);
            while self.token == Token::Sign(b',') {
                if args.len() == 16 {
                    return self.refuse();
                }
                self.advance()?;
                args.push(self.expr(0)?);
            }
        }
        self.sign(b')')?;
        Ok(args)
    }

    fn behind_variable(&mut self, var: u8) -> Result<Stmt, Refused> {
        match self.token {
            Token::Sign(b'=') => {
                self.advance()?;
                self.word("do")?;
                let kind = self.number(0, u32::MAX as u64)? as u32;
                self.grow(4)?;
                let args = self.arguments()?;
                self.word("tries")?;
                let tries = self.number(1, 32)? as u8;
                self.word("pause")?;
                let pause = self.number(0, 86_400_000)? as u32;
                Ok(Stmt::Do { var, kind, args, tries, pause })
            }
            Token::Sign(b',') => {
                self.advance()?;
                if self.token == Token::Variable(var) {
                    return self.refuse();
                }
                let other = self.variable()?;
                self.sign(b'=')?;
                self.word("hear")?;
                let Token::Name(name) = self.token else {
                    return self.refuse();
                };
                let name = name.to_string();
                self.advance()?;
                self.word("for")?;
                self.grow(17)?;
                let wait = self.expr(0)?;
                Ok(Stmt::Hear { var, other, name, wait })
            }
            _ => self.refuse(),
        }
    }

    fn stmt(&mut self) -> Result<Stmt, Refused> {
        if let Token::Variable(var) = self.token {
            self.advance()?;
            return self.behind_variable(var);
        }
        let Token::Word(word) = self.token else {
            return self.refuse();
        };
        if !["set", "sleep", "if", "while", "guard", "return", "fail"].contains(&word) {
            return self.refuse();
        }
        self.grow(1)?;
        self.advance()?;
        match word {
            "set" => {
                let var = self.variable()?;
                self.sign(b'=')?;
                Ok(Stmt::Set(var, self.expr(0)?))
            }
            "sleep" => Ok(Stmt::Sleep(self.expr(0)?)),
            "if" => {
                let test = self.expr(0)?;
                let first = self.braced()?;
                self.word("else")?;
                Ok(Stmt::If(test, first, self.braced()?))
            }
            "while" => {
                let test = self.expr(0)?;
                Ok(Stmt::While(test, self.braced()?))
            }
            "guard" => {
                let first = self.braced()?;
                self.word("else")?;
                Ok(Stmt::Guard(first, self.braced()?))
            }
            "return" => Ok(Stmt::Return(self.expr(0)?)),
            _ => Ok(Stmt::Fail),
        }
    }

    fn braced(&mut self) -> Result<Vec<Stmt>, Refused> {
        self.sign(b'{')?;
        let part = self.part()?;
        self.sign(b'}')?;
        Ok(part)
    }

    fn part(&mut self) -> Result<Vec<Stmt>, Refused> {
        let mut part = Vec::new();
        while self.token != Token::End && self.token != Token::Sign(b'}') {
            part.push(self.stmt()?);
        }
        self.grow(1)?;
        Ok(part)
    }
}

// The plan that a text is, and its size.
fn read(text: &[u8]) -> Result<(Vec<Stmt>, usize), Refused> {
    let mut reader = Reader::new(text)?;
    let plan = reader.part()?;
    if reader.token != Token::End {
        return reader.refuse();
    }
    Ok((plan, reader.size))
}

fn level(op: u8) -> u8 {
    match op {
        b'*' => 1,
        b'+' | b'-' => 2,
        _ => 3,
    }
}

// An expression where one of this level is wanted.
fn print_expr(e: &Expr, wanted: u8, out: &mut String) {
    match e {
        Expr::Number(n) => write!(out, "{n}").unwrap(),
        Expr::Variable(v) => write!(out, "v{v}").unwrap(),
        Expr::Not(e) => {
            out.push_str("not ");
            print_expr(e, 0, out);
        }
        Expr::Binary(op, a, b) => {
            let own = level(*op);
            if own > wanted {
                out.push('(');
            }
            print_expr(a, own, out);
            out.push(' ');
            out.push(*op as char);
            out.push(' ');
            print_expr(b, own - 1, out);
            if own > wanted {
                out.push(')');
            }
        }
    }
}

const SPACES: &str = "                                                                                                                                ";

fn indent(depth: usize, out: &mut String) {
    out.push_str(&SPACES[..4 * depth.min(32)]);
}

fn print_braced(part: &[Stmt], depth: usize, out: &mut String) {
    out.push_str(" {\n");
    print_part(part, depth + 1, out);
    indent(depth, out);
    out.push('}');
}

fn print_stmt(s: &Stmt, depth: usize, out: &mut String) {
    indent(depth, out);
    match s {
        Stmt::Set(v, e) => {
            write!(out, "set v{v} = ").unwrap();
            print_expr(e, 3, out);
        }
        Stmt::Do { var, kind, args, tries, pause } => {
            write!(out, "v{var} = do {kind} (").unwrap();
            for (i, e) in args.iter().enumerate() {
                if i > 0 {
                    out.push_str(", ");
                }
                print_expr(e, 3, out);
            }
            write!(out, ") tries {tries} pause {pause}").unwrap();
        }
        Stmt::Sleep(e) => {
            out.push_str("sleep ");
            print_expr(e, 3, out);
        }
        Stmt::Hear { var, other, name, wait } => {
            write!(out, "v{var}, v{other} = hear {name} for ").unwrap();
            print_expr(wait, 3, out);
        }
        Stmt::If(e, a, b) => {
            out.push_str("if ");
            print_expr(e, 3, out);
            print_braced(a, depth, out);
            out.push_str(" else");
            print_braced(b, depth, out);
        }
        Stmt::While(e, a) => {
            out.push_str("while ");
            print_expr(e, 3, out);
            print_braced(a, depth, out);
        }
        Stmt::Guard(a, b) => {
            out.push_str("guard");
            print_braced(a, depth, out);
            out.push_str(" else");
            print_braced(b, depth, out);
        }
        Stmt::Return(e) => {
            out.push_str("return ");
            print_expr(e, 3, out);
        }
        Stmt::Fail => out.push_str("fail"),
    }
    out.push('\n');
}

fn print_part(part: &[Stmt], depth: usize, out: &mut String) {
    for s in part {
        print_stmt(s, depth, out);
    }
}

fn print(plan: &[Stmt]) -> String {
    let mut out = String::new();
    print_part(plan, 0, &mut out);
    out
}

// The texts of the benchmark: statements again and again, and a remark up to the last byte.
const MIXED: &str = "# Orders are asked for once a day until one of them is ready, and
# each answer is kept; whoever waits longer than a week is told so.
while v1 < 1000000000000 {
    # the counter, the day in milliseconds and the widest number
    v2 = do 4000000000 (v1, v3 * 86400000, 18446744073709551615) tries 32 pause 86400000
    if v2 = 0 {
        sleep 86400000 # a day
        set v1 = v1 + 1234567890123 - v60
    } else {
        # nobody may wait for an answer longer than seven days, which
        # are counted from when the task before was done; an answer that
        # comes later than that is kept for whoever asks for it next
        v4, v5 = hear anotherorderthatisready for 86400000 * 7
        guard {
            # three times what was heard, or a failure that is caught
            set v6 = not (v4 + v5) * 3 < 12345678901234567890
        } else {
            fail
        }
    }
}
# The rest of the plan goes on with what was counted above, whether or
# not the loop has ended early.
if v63 - (v62 - 18446744073709551615) {
    return 18446744073709551615
} else {
    # nothing more is to be done here, but for what the plan does after
    # its last statement: it ends, and its answer is 0
}
";
const DENSE: &str = "set v1=v2*3+v4-5*v6 ";
const REMARKS: &str = "set v0 = v1 # what is known here before the next one is asked for
";

fn filled(block: &str, len: usize) -> Vec<u8> {
    let mut text = Vec::new();
    while text.len() + block.len() <= len {
        text.extend_from_slice(block.as_bytes());
    }
    if text.len() < len {
        text.push(b'#');
    }
    text.resize(len, b'-');
    text
}

fn sizes(what: &str, text: &[u8]) {
    let (plan, size) = read(text).unwrap();
    println!("{what}: {} bytes, size {size}, printed {} bytes", text.len(), print(&plan).len());
}

fn speed(bytes: usize, passes: u64, start: Instant) -> f64 {
    bytes as f64 * passes as f64 / start.elapsed().as_secs_f64() / 1e6
}

fn timed(what: &str, text: &[u8], passes: u64) {
    let start = Instant::now();
    let mut size = 0;
    for _ in 0..passes {
        size = std::hint::black_box(read(std::hint::black_box(text))).unwrap().1;
    }
    let reading = speed(text.len(), passes, start);
    let plan = read(text).unwrap().0;
    let start = Instant::now();
    let mut printed = 0;
    for _ in 0..passes {
        printed = std::hint::black_box(print(std::hint::black_box(&plan))).len();
    }
    let printing = speed(printed, passes, start);
    println!("{what}: {} bytes, size {size}: reads {reading:.0} MB/s, prints {printing:.0} MB/s", text.len());
}

// The bytes that a text with escapes stands for.
fn unescaped(text: &str) -> Vec<u8> {
    let b = text.as_bytes();
    let mut out = Vec::new();
    let mut marks: Vec<(usize, usize)> = Vec::new();
    let mut i = 0;
    while i < b.len() {
        if b[i] != b'\\' {
            out.push(b[i]);
            i += 1;
            continue;
        }
        i += 2;
        match b[i - 1] {
            b'n' => out.push(b'\n'),
            b't' => out.push(b'\t'),
            b'r' => out.push(b'\r'),
            b's' => out.push(b' '),
            b'\\' => out.push(b'\\'),
            b'x' => {
                out.push(u8::from_str_radix(&text[i..i + 2], 16).unwrap());
                i += 2;
            }
            b'(' => {
                let star = i + text[i..].find('*').unwrap();
                marks.push((out.len(), text[i..star].parse().unwrap()));
                i = star + 1;
            }
            b')' => {
                let (start, times) = marks.pop().unwrap();
                let piece = out.split_off(start);
                out.extend(piece.repeat(times));
            }
            _ => panic!("no such escape: {text}"),
        }
    }
    assert!(marks.is_empty());
    out
}

fn escaped(text: &str) -> String {
    text.replace('\\', "\\\\").replace('\n', "\\n")
}

fn table() {
    for line in std::io::stdin().lock().lines() {
        let line = line.unwrap();
        let (name, text) = line.split_once(' ').unwrap_or((&line, ""));
        match read(&unescaped(text)) {
            Ok((plan, size)) => {
                let printed = print(&plan);
                if printed.is_empty() || printed.len() > 200 {
                    println!("{name} plan {size}");
                } else {
                    println!("{name} plan {size} {}", escaped(&printed));
                }
            }
            Err(Refused(at)) => println!("{name} no {at}"),
        }
    }
}

fn main() {
    let what = std::env::args().nth(1).unwrap_or("sizes".to_string());
    if what == "table" {
        return table();
    }
    let texts = [
        ("mixed", filled(MIXED, 65536)),
        ("mixed", filled(MIXED, 16384)),
        ("dense", filled(DENSE, 8192)),
        ("remarks", filled(REMARKS, 65536)),
    ];
    for (name, text) in &texts {
        match what.parse() {
            Ok(passes) => timed(name, text, passes),
            Err(_) => sizes(name, text),
        }
    }
}
