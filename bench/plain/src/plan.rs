//! Reads a plan text. Written from the handbook's rules, independently of the verified reader.

#[derive(Clone, Default)]
pub struct Plan {
    pub declared: u64,
    pub users: Vec<u64>,
    pub registered: Vec<u64>,
}

/// The number of a fault and its place.
pub type Fault = (u8, usize);

#[derive(Clone, Copy, PartialEq)]
enum Token<'a> {
    Name(&'a [u8]),
    Number(u32),
    Text(&'a [u8]),
    Mark(u8),
    End,
}

struct Lexer<'a> {
    text: &'a [u8],
    at: usize,
}

impl<'a> Lexer<'a> {
    fn skip_blanks(&mut self) {
        while self.at < self.text.len() {
            match self.text[self.at] {
                b' ' | b'\t' | b'\r' | b'\n' => self.at += 1,
                b'/' if self.text.get(self.at + 1) == Some(&b'/') => {
                    while self.at < self.text.len() && self.text[self.at] != b'\n' {
                        self.at += 1;
                    }
                }
                _ => break,
            }
        }
    }

    fn run(&self, from: usize, ok: impl Fn(u8) -> bool) -> usize {
        from + self.text[from..].iter().take_while(|b| ok(**b)).count()
    }

    /// The next token with its place.
    fn next(&mut self) -> Result<(Token<'a>, usize), Fault> {
        self.skip_blanks();
        let place = self.at;
        let Some(&first) = self.text.get(place) else {
            return Ok((Token::End, place));
        };
        let token = match first {
            b'a'..=b'z' | b'A'..=b'Z' | b'_' => {
                let end = self.run(place, |b| b.is_ascii_alphanumeric() || b == b'_');
                self.at = end;
                if end - place > 32 {
                    return Err((2, place));
                }
                Token::Name(&self.text[place..end])
            }
            b'0'..=b'9' => {
                let end = self.run(place, |b| b.is_ascii_digit());
                self.at = end;
                if end - place > 9 {
                    return Err((2, place));
                }
                let digits = &self.text[place..end];
                Token::Number(digits.iter().fold(0, |n, d| n * 10 + u32::from(d - b'0')))
            }
            b'"' => {
                let end = self.run(place + 1, |b| b != b'"' && b != b'\n');
                if self.text.get(end) != Some(&b'"') || end - place - 1 > 32 {
                    return Err((2, place));
                }
                self.at = end + 1;
                Token::Text(&self.text[place + 1..end])
            }
            b'{' | b'}' | b'=' | b';' => {
                self.at = place + 1;
                Token::Mark(first)
            }
            _ => return Err((2, place)),
        };
        Ok((token, place))
    }

    fn expect(&mut self, wanted: &[Token]) -> Result<(), Fault> {
        for w in wanted {
            let (found, place) = self.next()?;
            if found != *w {
                return Err((3, place));
            }
        }
        Ok(())
    }

    fn name(&mut self) -> Result<(&'a [u8], usize), Fault> {
        match self.next()? {
            (Token::Name(n), place) => Ok((n, place)),
            (_, place) => Err((3, place)),
        }
    }

    fn number(&mut self) -> Result<(u32, usize), Fault> {
        match self.next()? {
            (Token::Number(n), place) => Ok((n, place)),
            (_, place) => Err((3, place)),
        }
    }
}

#[derive(Clone, Copy, PartialEq)]
enum Kind {
    Resource(usize),
    Event(usize),
    Task,
}

const fn word(s: &str) -> Token<'_> {
    Token::Name(s.as_bytes())
}

pub fn read(text: &[u8]) -> Result<Plan, Fault> {
    use Token::Mark;
    if text.len() > 32768 {
        return Err((1, 32768));
    }
    let mut lexer = Lexer { text, at: 0 };
    let mut plan = Plan::default();
    let mut names: Vec<(&[u8], Kind)> = Vec::new();
    let mut tasks = 0;
    lexer.expect(&[word("OIL_VERSION"), Mark(b'='), Token::Text(b"2.5"), Mark(b';'), word("CPU")])?;
    lexer.name()?;
    lexer.expect(&[Mark(b'{')])?;
    loop {
        let (head, place) = lexer.next()?;
        let head = match head {
            Token::Name(n @ (b"RESOURCE" | b"EVENT" | b"TASK")) => n,
            Mark(b'}') => break,
            _ => return Err((3, place)),
        };
        let (name, place) = lexer.name()?;
        if names.iter().any(|(n, _)| *n == name) {
            return Err((5, place));
        }
        match head {
            b"RESOURCE" => {
                if plan.users.len() == 32 {
                    return Err((7, place));
                }
                names.push((name, Kind::Resource(plan.users.len())));
                plan.users.push(0);
                lexer.expect(&[Mark(b'{'), word("RESOURCEPROPERTY"), Mark(b'='), word("STANDARD"), Mark(b';'), Mark(b'}'), Mark(b';')])?;
            }
            b"EVENT" => {
                if plan.registered.len() == 32 {
                    return Err((7, place));
                }
                names.push((name, Kind::Event(plan.registered.len())));
                plan.registered.push(0);
                lexer.expect(&[Mark(b'{'), word("MASK"), Mark(b'='), word("AUTO"), Mark(b';'), Mark(b'}'), Mark(b';')])?;
            }
            _ => {
                if tasks == 64 {
                    return Err((7, place));
                }
                tasks += 1;
                names.push((name, Kind::Task));
                task(&mut lexer, &mut plan, &names)?;
            }
        }
    }
    lexer.expect(&[Mark(b';'), Token::End])?;
    if plan.declared == 0 {
        return Err((8, text.len()));
    }
    Ok(plan)
}

fn task(lexer: &mut Lexer, plan: &mut Plan, names: &[(&[u8], Kind)]) -> Result<(), Fault> {
    use Token::Mark;
    lexer.expect(&[Mark(b'{'), word("PRIORITY"), Mark(b'=')])?;
    let (priority, place) = lexer.number()?;
    if priority > 63 || plan.declared >> priority & 1 == 1 {
        return Err((6, place));
    }
    plan.declared |= 1 << priority;
    lexer.expect(&[Mark(b';'), word("SCHEDULE"), Mark(b'='), word("FULL"), Mark(b';'), word("ACTIVATION"), Mark(b'=')])?;
    let (activation, place) = lexer.number()?;
    if activation != 1 {
        return Err((6, place));
    }
    lexer.expect(&[Mark(b';'), word("AUTOSTART"), Mark(b'='), word("FALSE"), Mark(b';')])?;
    loop {
        let (head, place) = lexer.next()?;
        let resource = match head {
            Token::Name(b"RESOURCE") => true,
            Token::Name(b"EVENT") => false,
            Mark(b'}') => return lexer.expect(&[Mark(b';')]),
            _ => return Err((3, place)),
        };
        lexer.expect(&[Mark(b'=')])?;
        let (name, place) = lexer.name()?;
        match names.iter().find(|(n, _)| *n == name) {
            Some((_, Kind::Resource(r))) if resource => plan.users[*r] |= 1 << priority,
            Some((_, Kind::Event(e))) if !resource => plan.registered[*e] |= 1 << priority,
            _ => return Err((4, place)),
        }
        lexer.expect(&[Mark(b';')])?;
    }
}
