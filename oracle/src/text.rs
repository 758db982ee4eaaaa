//! The text of scripts and answers: reading tokens, writing values.

use raft_engine::env::{
    Command, CompressionType, EntryIndex, EntryIndexes, FileBlockHandle, FileId, KeyValue, LogItem,
    LogItemContent, LogQueue, OpType,
};

pub type Read<T> = Result<T, String>;

/// The tokens of one line.
pub struct Tokens<'a>(std::str::Split<'a, char>);

impl<'a> Tokens<'a> {
    pub fn new(line: &'a str) -> Self {
        Tokens(line.split(' '))
    }

    pub fn word(&mut self) -> Read<&'a str> {
        self.0.next().ok_or_else(|| "a token is missing".to_string())
    }

    pub fn end(&mut self) -> Read<()> {
        match self.0.next() {
            Some(t) => Err(format!("token too many: {}", t)),
            None => Ok(()),
        }
    }

    pub fn number(&mut self) -> Read<u64> {
        number(self.word()?)
    }

    pub fn maybe_number(&mut self) -> Read<Option<u64>> {
        match self.word()? {
            "-" => Ok(None),
            t => number(t).map(Some),
        }
    }

    pub fn queue(&mut self) -> Read<LogQueue> {
        queue(self.word()?)
    }

    pub fn bytes(&mut self) -> Read<Vec<u8>> {
        bytes(self.word()?)
    }

    pub fn maybe_bytes(&mut self) -> Read<Option<Vec<u8>>> {
        match self.word()? {
            "-" => Ok(None),
            t => bytes(t).map(Some),
        }
    }

    pub fn file(&mut self) -> Read<FileId> {
        let queue = self.queue()?;
        Ok(FileId::new(queue, self.number()?))
    }

    pub fn maybe_file(&mut self) -> Read<Option<FileId>> {
        let queue = match self.word()? {
            "-" => return Ok(None),
            t => queue(t)?,
        };
        Ok(Some(FileId::new(queue, self.number()?)))
    }

    fn handle(&mut self) -> Read<Option<FileBlockHandle>> {
        let id = match self.maybe_file()? {
            None => return Ok(None),
            Some(id) => id,
        };
        let offset = self.number()?;
        let len = self.number()? as usize;
        Ok(Some(FileBlockHandle { id, offset, len }))
    }

    fn entry(&mut self) -> Read<EntryIndex> {
        Ok(EntryIndex {
            index: self.number()?,
            entries: self.handle()?,
            compression_type: match self.number()? {
                0 => CompressionType::None,
                1 => CompressionType::Lz4,
                n => return Err(format!("compression type {}", n)),
            },
            entry_offset: self.short()?,
            entry_len: self.short()?,
        })
    }

    fn short(&mut self) -> Read<u32> {
        let n = self.number()?;
        if n > u64::from(u32::MAX) {
            return Err(format!("above 32 bits: {}", n));
        }
        Ok(n as u32)
    }

    pub fn entries(&mut self) -> Read<Vec<EntryIndex>> {
        let n = self.number()?;
        (0..n).map(|_| self.entry()).collect()
    }

    fn item(&mut self) -> Read<LogItem> {
        let word = self.word()?;
        let group = self.number()?;
        let content = match word {
            "E" => LogItemContent::EntryIndexes(EntryIndexes(self.entries()?)),
            "X" => LogItemContent::Command(Command::Clean),
            "C" => LogItemContent::Command(Command::Compact { index: self.number()? }),
            "P" => LogItemContent::Kv(KeyValue {
                op_type: OpType::Put,
                key: self.bytes()?,
                value: self.maybe_bytes()?,
                file_id: self.maybe_file()?,
            }),
            "D" => LogItemContent::Kv(KeyValue::new(OpType::Del, self.bytes()?, None)),
            t => return Err(format!("unknown item {}", t)),
        };
        Ok(LogItem { raft_group_id: group, content })
    }

    pub fn items(&mut self) -> Read<Vec<LogItem>> {
        let n = self.number()?;
        (0..n).map(|_| self.item()).collect()
    }
}

fn number(t: &str) -> Read<u64> {
    t.parse().map_err(|_| format!("no number: {}", t))
}

fn queue(t: &str) -> Read<LogQueue> {
    match t {
        "0" => Ok(LogQueue::Append),
        "1" => Ok(LogQueue::Rewrite),
        _ => Err(format!("no queue: {}", t)),
    }
}

fn bytes(t: &str) -> Read<Vec<u8>> {
    if t == "." {
        return Ok(Vec::new());
    }
    if t.is_empty() || t.len() % 2 != 0 || !t.is_ascii() {
        return Err(format!("no bytes: {}", t));
    }
    let pair = |i| u8::from_str_radix(&t[i..i + 2], 16).map_err(|_| format!("no bytes: {}", t));
    (0..t.len()).step_by(2).map(pair).collect()
}

/// A line in the making.
#[derive(Default, Clone)]
pub struct Line(pub String);

impl Line {
    pub fn of(word: &str) -> Line {
        Line(word.to_string())
    }

    pub fn word(mut self, t: &str) -> Line {
        if !self.0.is_empty() {
            self.0.push(' ');
        }
        self.0.push_str(t);
        self
    }

    pub fn number(self, n: u64) -> Line {
        self.word(&n.to_string())
    }

    pub fn maybe_number(self, n: Option<u64>) -> Line {
        match n {
            Some(n) => self.number(n),
            None => self.word("-"),
        }
    }

    pub fn queue(self, q: LogQueue) -> Line {
        self.number(q as u64)
    }

    pub fn bytes(self, b: &[u8]) -> Line {
        if b.is_empty() {
            return self.word(".");
        }
        let text: String = b.iter().map(|x| format!("{:02x}", x)).collect();
        self.word(&text)
    }

    pub fn maybe_bytes(self, b: Option<&[u8]>) -> Line {
        match b {
            Some(b) => self.bytes(b),
            None => self.word("-"),
        }
    }

    pub fn file(self, f: FileId) -> Line {
        self.queue(f.queue).number(f.seq)
    }

    pub fn maybe_file(self, f: Option<FileId>) -> Line {
        match f {
            Some(f) => self.file(f),
            None => self.word("-"),
        }
    }

    pub fn entry(self, e: &EntryIndex) -> Line {
        let line = self.number(e.index);
        let line = match e.entries {
            Some(h) => line.file(h.id).number(h.offset).number(h.len as u64),
            None => line.word("-"),
        };
        line.number(e.compression_type as u64)
            .number(u64::from(e.entry_offset))
            .number(u64::from(e.entry_len))
    }

    pub fn entries(self, list: &[EntryIndex]) -> Line {
        list.iter().fold(self.number(list.len() as u64), Line::entry)
    }

    pub fn pairs(self, list: &[(Vec<u8>, Vec<u8>)]) -> Line {
        let line = self.number(list.len() as u64);
        list.iter().fold(line, |l, (k, v)| l.bytes(k).bytes(v))
    }

    pub fn numbers(self, list: &[u64]) -> Line {
        list.iter().fold(self.number(list.len() as u64), |l, n| l.number(*n))
    }

    pub fn item(self, item: &LogItem) -> Line {
        let g = item.raft_group_id;
        match &item.content {
            LogItemContent::EntryIndexes(list) => self.word("E").number(g).entries(&list.0),
            LogItemContent::Command(Command::Clean) => self.word("X").number(g),
            LogItemContent::Command(Command::Compact { index }) => {
                self.word("C").number(g).number(*index)
            }
            LogItemContent::Kv(kv) => match kv.op_type {
                OpType::Put => self
                    .word("P")
                    .number(g)
                    .bytes(&kv.key)
                    .maybe_bytes(kv.value.as_deref())
                    .maybe_file(kv.file_id),
                OpType::Del => self.word("D").number(g).bytes(&kv.key),
            },
        }
    }

    pub fn items(self, list: &[LogItem]) -> Line {
        list.iter().fold(self.number(list.len() as u64), Line::item)
    }
}
