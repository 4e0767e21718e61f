//! Texts of plans: from bytes to words and signs, and from these to a plan.

use crate::plan::{Expr, Joint, Part, SIZE_LIMIT, Stmt, VARS, size_of};
use std::rc::Rc;

pub const TEXT_LIMIT: usize = 65_536;
const BRACKETS: usize = 256;
pub const PAUSE_LIMIT: u64 = 86_400_000;
const TRIES_LIMIT: u64 = 32;
pub const WORDS_LIMIT: usize = 16;

/// The words of the language; none of them is a name.
const KEYWORDS: [&str; 14] =
    ["set", "do", "tries", "pause", "sleep", "hear", "for", "if", "else", "while", "guard", "return", "fail", "not"];

#[derive(Debug, Clone, PartialEq)]
pub enum Token {
    Number(u64),
    Variable(u8),
    Name(Vec<u8>),
    Keyword(&'static str),
    Sign(u8),
}

/// A word's name: 1 to 64 letters a to z.
pub fn is_word_name(name: &[u8]) -> bool {
    (1..=64).contains(&name.len()) && name.iter().all(u8::is_ascii_lowercase)
}

fn number_of(digits: &[u8]) -> Option<u64> {
    if digits.is_empty() || !digits.iter().all(u8::is_ascii_digit) {
        return None;
    }
    digits.iter().try_fold(0u64, |n, d| n.checked_mul(10)?.checked_add((d - b'0') as u64))
}

fn variable_of(word: &[u8]) -> Option<u8> {
    let digits = word.strip_prefix(b"v")?;
    if digits.len() > 1 && digits[0] == b'0' {
        return None;
    }
    number_of(digits).filter(|v| *v < VARS as u64).map(|v| v as u8)
}

fn token_of(word: &[u8]) -> Option<Token> {
    if let Some(n) = number_of(word) {
        return Some(Token::Number(n));
    }
    if let Some(k) = KEYWORDS.iter().find(|k| k.as_bytes() == word) {
        return Some(Token::Keyword(k));
    }
    if is_word_name(word) {
        return Some(Token::Name(word.to_vec()));
    }
    variable_of(word).map(Token::Variable)
}

pub fn tokens(text: &[u8]) -> Option<Vec<Token>> {
    let mut found = Vec::new();
    let mut at = 0;
    while at < text.len() {
        let byte = text[at];
        if byte.is_ascii_alphanumeric() {
            let len = text[at..].iter().take_while(|b| b.is_ascii_alphanumeric()).count();
            found.push(token_of(&text[at..at + len])?);
            at += len;
            continue;
        }
        match byte {
            b' ' | b'\t' | b'\r' | b'\n' => {}
            b'#' => at += text[at..].iter().take_while(|b| **b != b'\n').count() - 1,
            b'+' | b'-' | b'*' | b'<' | b'=' | b'(' | b')' | b'{' | b'}' | b',' => found.push(Token::Sign(byte)),
            _ => return None,
        }
        at += 1;
    }
    Some(found)
}

/// Reads tokens from the left; every method gives None where they are no such thing.
struct Reader {
    tokens: Vec<Token>,
    at: usize,
}

impl Reader {
    fn peek(&self) -> Option<&Token> {
        self.tokens.get(self.at)
    }

    fn accept(&mut self, token: Token) -> bool {
        let is = self.peek() == Some(&token);
        self.at += is as usize;
        is
    }

    fn sign(&mut self, sign: u8) -> Option<()> {
        self.accept(Token::Sign(sign)).then_some(())
    }

    fn keyword(&mut self, word: &'static str) -> Option<()> {
        self.accept(Token::Keyword(word)).then_some(())
    }

    fn number(&mut self) -> Option<u64> {
        let Some(Token::Number(n)) = self.peek() else { return None };
        let n = *n;
        self.at += 1;
        Some(n)
    }

    fn variable(&mut self) -> Option<u8> {
        let Some(Token::Variable(v)) = self.peek() else { return None };
        let v = *v;
        self.at += 1;
        Some(v)
    }

    fn unary(&mut self, brackets: usize) -> Option<Expr> {
        if self.accept(Token::Keyword("not")) {
            return Some(Expr::Not(Box::new(self.unary(brackets)?)));
        }
        if self.accept(Token::Sign(b'(')) {
            let inner = self.compare(brackets.checked_sub(1)?)?;
            self.sign(b')')?;
            return Some(inner);
        }
        if let Some(n) = self.number() {
            return Some(Expr::Lit(n));
        }
        self.variable().map(Expr::Var)
    }

    /// Operands joined from the left by any of some signs.
    fn chain(&mut self, brackets: usize, signs: &[(u8, Joint)], operand: fn(&mut Reader, usize) -> Option<Expr>) -> Option<Expr> {
        let mut left = operand(self, brackets)?;
        'more: loop {
            for (sign, joint) in signs {
                if self.accept(Token::Sign(*sign)) {
                    let right = operand(self, brackets)?;
                    left = Expr::Joined(*joint, Box::new(left), Box::new(right));
                    continue 'more;
                }
            }
            return Some(left);
        }
    }

    fn product(&mut self, brackets: usize) -> Option<Expr> {
        self.chain(brackets, &[(b'*', Joint::Times)], Reader::unary)
    }

    fn sum(&mut self, brackets: usize) -> Option<Expr> {
        self.chain(brackets, &[(b'+', Joint::Plus), (b'-', Joint::Minus)], Reader::product)
    }

    fn compare(&mut self, brackets: usize) -> Option<Expr> {
        self.chain(brackets, &[(b'<', Joint::Less), (b'=', Joint::Same)], Reader::sum)
    }

    fn expr(&mut self) -> Option<Expr> {
        self.compare(BRACKETS)
    }

    /// Expressions with commas between them, up to a closing bracket.
    fn arguments(&mut self) -> Option<Vec<Expr>> {
        let mut found = Vec::new();
        if self.accept(Token::Sign(b')')) {
            return Some(found);
        }
        loop {
            found.push(self.expr()?);
            if self.accept(Token::Sign(b')')) {
                return Some(found);
            }
            self.sign(b',')?;
        }
    }

    fn braced(&mut self) -> Option<Part> {
        self.sign(b'{')?;
        let part = self.part()?;
        self.sign(b'}')?;
        Some(Rc::new(part))
    }

    fn doing(&mut self, var: u8) -> Option<Stmt> {
        let kind = self.number().filter(|k| *k <= u32::MAX as u64)? as u32;
        self.sign(b'(')?;
        let words = self.arguments().filter(|ws| ws.len() <= WORDS_LIMIT)?;
        self.keyword("tries")?;
        let tries = self.number().filter(|n| (1..=TRIES_LIMIT).contains(n))? as u32;
        self.keyword("pause")?;
        let pause = self.number().filter(|p| *p <= PAUSE_LIMIT)?;
        Some(Stmt::Do { var, kind, words, tries, pause })
    }

    fn hearing(&mut self, value: u8) -> Option<Stmt> {
        let came = self.variable().filter(|w| *w != value)?;
        self.sign(b'=')?;
        self.keyword("hear")?;
        let Some(Token::Name(name)) = self.peek() else { return None };
        let name = Rc::new(name.clone());
        self.at += 1;
        self.keyword("for")?;
        Some(Stmt::Hear { value, came, name, ms: self.expr()? })
    }

    fn statement(&mut self) -> Option<Stmt> {
        if let Some(var) = self.variable() {
            if self.accept(Token::Sign(b',')) {
                return self.hearing(var);
            }
            self.sign(b'=')?;
            self.keyword("do")?;
            return self.doing(var);
        }
        let Some(Token::Keyword(word)) = self.peek() else { return None };
        let word = *word;
        self.at += 1;
        match word {
            "set" => {
                let var = self.variable()?;
                self.sign(b'=')?;
                Some(Stmt::Set { var, to: self.expr()? })
            }
            "sleep" => Some(Stmt::Sleep(self.expr()?)),
            "if" => {
                let test = self.expr()?;
                let yes = self.braced()?;
                self.keyword("else")?;
                Some(Stmt::If { test, yes, no: self.braced()? })
            }
            "while" => {
                let test = self.expr()?;
                Some(Stmt::While { test, body: self.braced()? })
            }
            "guard" => {
                let body = self.braced()?;
                self.keyword("else")?;
                Some(Stmt::Guard { body, rescue: self.braced()? })
            }
            "return" => Some(Stmt::Return(self.expr()?)),
            "fail" => Some(Stmt::Fail),
            _ => None,
        }
    }

    fn part(&mut self) -> Option<Vec<Stmt>> {
        let mut found = Vec::new();
        while !matches!(self.peek(), None | Some(Token::Sign(b'}'))) {
            found.push(self.statement()?);
        }
        Some(found)
    }
}

/// The plan that a text is, within all limits.
pub fn read_plan(text: &[u8]) -> Option<Part> {
    if text.len() > TEXT_LIMIT {
        return None;
    }
    let mut reader = Reader { tokens: tokens(text)?, at: 0 };
    let part = reader.part()?;
    let whole = reader.peek().is_none() && size_of(&part) <= SIZE_LIMIT;
    whole.then(|| Rc::new(part))
}

/// An expression by itself.
pub fn read_expr(text: &[u8]) -> Option<Expr> {
    let mut reader = Reader { tokens: tokens(text)?, at: 0 };
    let expr = reader.expr()?;
    reader.peek().is_none().then_some(expr)
}
