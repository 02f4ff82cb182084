//! A small JSON reader for the vector files, whose numbers are all whole.

/// A JSON value. Text is bytes: the vector files write each byte of a text as the character of that number.
#[derive(Clone, Debug, PartialEq, Eq)]
pub enum Json {
    Null,
    Number(i128),
    Text(Vec<u8>),
    List(Vec<Json>),
    Record(Vec<(Vec<u8>, Json)>),
}

/// Reads one value that takes up the whole text.
pub fn parse(text: &str) -> Result<Json, String> {
    let mut parser = Parser { rest: text.chars().collect(), at: 0 };
    let value = parser.value()?;
    parser.blanks();
    match parser.here() {
        None => Ok(value),
        Some(_) => parser.fault("the end"),
    }
}

impl Json {
    /// A record's field; none where it has no such field or is no record.
    pub fn field(&self, name: &str) -> Option<&Json> {
        match self {
            Json::Record(fields) => fields.iter().find(|field| field.0 == name.as_bytes()).map(|field| &field.1),
            _ => None,
        }
    }

    pub fn number(&self) -> Option<i128> {
        match self {
            Json::Number(number) => Some(*number),
            _ => None,
        }
    }

    pub fn text(&self) -> Option<&[u8]> {
        match self {
            Json::Text(text) => Some(text),
            _ => None,
        }
    }

    pub fn list(&self) -> Option<&[Json]> {
        match self {
            Json::List(list) => Some(list),
            _ => None,
        }
    }
}

struct Parser {
    rest: Vec<char>,
    at: usize,
}

impl Parser {
    fn here(&self) -> Option<char> {
        self.rest.get(self.at).copied()
    }

    fn fault<T>(&self, wanted: &str) -> Result<T, String> {
        Err(format!("character {}: {:?} where {} is wanted", self.at, self.here(), wanted))
    }

    fn blanks(&mut self) {
        while matches!(self.here(), Some(' ' | '\t' | '\n' | '\r')) {
            self.at += 1;
        }
    }

    /// Steps over a character if it comes next, blanks before it apart.
    fn takes(&mut self, wanted: char) -> bool {
        self.blanks();
        let there = self.here() == Some(wanted);
        self.at += usize::from(there);
        there
    }

    fn needs(&mut self, wanted: char) -> Result<(), String> {
        if self.takes(wanted) {
            Ok(())
        } else {
            self.fault(&format!("{:?}", wanted))
        }
    }

    fn value(&mut self) -> Result<Json, String> {
        self.blanks();
        match self.here() {
            Some('n') => "null".chars().try_for_each(|letter| self.needs(letter)).map(|()| Json::Null),
            Some('-' | '0'..='9') => self.whole_number(),
            Some('"') => self.string().map(Json::Text),
            Some('[') => self.items('[', ']', Parser::value).map(Json::List),
            Some('{') => self.items('{', '}', Parser::named).map(Json::Record),
            _ => self.fault("a value"),
        }
    }

    fn named(&mut self) -> Result<(Vec<u8>, Json), String> {
        self.blanks();
        let name = self.string()?;
        self.needs(':')?;
        Ok((name, self.value()?))
    }

    /// What stands between two brackets, parted by commas.
    fn items<T>(
        &mut self,
        open: char,
        close: char,
        item: fn(&mut Parser) -> Result<T, String>,
    ) -> Result<Vec<T>, String> {
        let mut items = Vec::new();
        self.needs(open)?;
        if self.takes(close) {
            return Ok(items);
        }
        loop {
            items.push(item(self)?);
            if self.takes(close) {
                return Ok(items);
            }
            self.needs(',')?;
        }
    }

    fn whole_number(&mut self) -> Result<Json, String> {
        let start = self.at;
        self.at += usize::from(self.here() == Some('-'));
        while matches!(self.here(), Some('0'..='9')) {
            self.at += 1;
        }
        let digits: String = self.rest[start..self.at].iter().collect();
        digits.parse().map(Json::Number).or_else(|_| self.fault("a whole number"))
    }

    fn string(&mut self) -> Result<Vec<u8>, String> {
        self.needs('"')?;
        let mut bytes = Vec::new();
        loop {
            let letter = match self.here() {
                Some('"') => {
                    self.at += 1;
                    return Ok(bytes);
                }
                Some('\\') => self.escaped()?,
                Some(letter) => u32::from(letter),
                None => return self.fault("the end of a text"),
            };
            match u8::try_from(letter) {
                Ok(byte) => bytes.push(byte),
                Err(_) => return self.fault("a character that is one byte"),
            }
            self.at += 1;
        }
    }

    /// The character that an escape stands for; the parser then stands at the escape's last character.
    fn escaped(&mut self) -> Result<u32, String> {
        self.at += 1;
        Ok(match self.here() {
            Some(letter @ ('"' | '\\' | '/')) => u32::from(letter),
            Some('b') => 8,
            Some('f') => 12,
            Some('n') => 10,
            Some('r') => 13,
            Some('t') => 9,
            Some('u') => {
                let mut code = 0;
                for _ in 0..4 {
                    self.at += 1;
                    match self.here().and_then(|digit| digit.to_digit(16)) {
                        Some(digit) => code = code * 16 + digit,
                        None => return self.fault("a hexadecimal digit"),
                    }
                }
                code
            }
            _ => return self.fault("an escape"),
        })
    }
}
