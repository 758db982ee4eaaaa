//! Runs a script on the port, line by line, and gives the answers.

use super::dump::dump;
use super::query::{ask, queue};
use super::rows::Lent;
use crate::cuttings::Answers;
use crate::text::{Line, Read, Tokens};
use galdnyrr::{Area, Queue, Refusal};
use raft_engine::env::FileId;
use std::collections::BTreeMap;

type Answer = Vec<String>;

/// The contexts and indexes of a script. One that a call of the script would have made, which the library does not have, is None,
/// and so is every answer of it.
#[derive(Default)]
pub struct Port {
    objects: BTreeMap<u64, Option<Area>>,
    /// Whether the last call was refused, and left an area that stands for something else than before it.
    pub changed_by_refusal: bool,
    /// Whether the last call wrote more of a lent list than its answer.
    pub spilt: bool,
}

impl Answers for Port {
    fn answer(&mut self, line: &str) -> Read<Answer> {
        self.line(line)?.ok_or_else(|| "the library has no such call".to_string())
    }
}

impl Port {
    /// The answer lines to one line of a script; None for a call that the library does not have.
    pub fn line(&mut self, line: &str) -> Read<Option<Answer>> {
        self.changed_by_refusal = false;
        self.spilt = false;
        if line.is_empty() || line.starts_with('#') {
            return Ok(Some(Vec::new()));
        }
        let mut t = Tokens::new(line);
        match t.word()? {
            "script" => {
                self.objects.clear();
                Ok(ok())
            }
            "c" => self.object_line(&mut t),
            "q" => self.query_line(&mut t, None),
            _ => Ok(None),
        }
    }

    pub fn has(&self, n: u64) -> bool {
        matches!(self.objects.get(&n), Some(Some(_)))
    }

    fn object(&self, n: u64) -> Read<Option<&Area>> {
        self.objects.get(&n).map(Option::as_ref).ok_or_else(|| format!("no context {}", n))
    }

    /// A query; its lent lists have room for all, or for so many rows.
    fn query_line(&mut self, t: &mut Tokens, room: Option<usize>) -> Read<Option<Answer>> {
        let (n, group, word) = (t.number()?, t.number()?, t.word()?);
        let area = match self.object(n)? {
            Some(area) => area,
            None => return Ok(None),
        };
        let asked = ask(area, group, word, t, room)?;
        self.spilt = asked.spilt;
        Ok(asked.line.map(|l| vec![l.0]))
    }

    /// The same query with lists that have room for so many rows.
    pub fn short(&mut self, line: &str, room: usize) -> Read<Option<Answer>> {
        self.changed_by_refusal = false;
        let mut t = Tokens::new(line);
        t.word()?;
        self.query_line(&mut t, Some(room))
    }

    fn object_line(&mut self, t: &mut Tokens) -> Read<Option<Answer>> {
        let n = t.number()?;
        let word = t.word()?;
        match word {
            "new" => {
                let queue = queue(t.queue()?);
                t.end()?;
                self.objects.insert(n, Some(Area::fresh(queue)));
                Ok(ok())
            }
            "replay" | "live_append" | "live_rewrite" => {
                let file = t.file()?;
                let gate = if word == "live_rewrite" { t.maybe_number()? } else { None };
                let items = t.items()?;
                t.end()?;
                self.batch(n, word, file, gate, &Lent::of(&items))
            }
            "merge" | "join" => {
                let other = t.number()?;
                t.end()?;
                self.combine(n, word, other)
            }
            "cleaned" => {
                t.end()?;
                let area = match self.objects.get_mut(&n) {
                    Some(Some(area)) => area,
                    _ => return Ok(None),
                };
                Ok(Some(match area.take_cleaned_region_logs(&mut [0; 64]) {
                    Ok(list) => vec![Line::default().numbers(list).0],
                    Err(r) => vec![refused(r)],
                }))
            }
            "dump" => {
                t.end()?;
                Ok(self.object(n)?.map(dump))
            }
            "live" | "groups" | "is_empty" => {
                t.end()?;
                Ok(self.object(n)?.map(|area| vec![all_groups(area, word).0]))
            }
            _ => Ok(None),
        }
    }

    /// A merge or a join, of any kinds.
    fn combine(&mut self, n: u64, word: &str, other: u64) -> Read<Option<Answer>> {
        let (mut area, newer) = match (self.object(n)?, self.object(other)?) {
            (Some(a), Some(b)) => (a.clone(), b.clone()),
            _ => {
                self.objects.insert(n, None);
                return Ok(None);
            }
        };
        let before = dump(&area);
        let answer = if word == "merge" { area.merge(&newer) } else { area.join(&newer) };
        self.changed_by_refusal = answer.is_err() && before != dump(&area);
        self.objects.insert(n, Some(area));
        Ok(match answer {
            Ok(()) => ok(),
            Err(r) => Some(vec![refused(r)]),
        })
    }

    /// A call of a batch, on any kind.
    pub fn batch(
        &mut self,
        n: u64,
        word: &str,
        file: FileId,
        gate: Option<u64>,
        lent: &Lent,
    ) -> Read<Option<Answer>> {
        let area = match self.objects.get_mut(&n) {
            Some(Some(area)) => area,
            Some(None) => return Ok(None),
            None => return Err(format!("no context {}", n)),
        };
        let before = area.clone();
        let rows = lent.rows();
        let answer = match word {
            "live_append" => area.append(file_id(file), rows),
            "live_rewrite" => area.rewrite(gate, file_id(file), rows),
            _ => area.replay(file_id(file), rows),
        };
        self.changed_by_refusal = answer.is_err() && dump(&before) != dump(area);
        Ok(match answer {
            Ok(()) => ok(),
            Err(r) => Some(vec![refused(r)]),
        })
    }
}

/// A query of all groups.
fn all_groups(area: &Area, word: &str) -> Line {
    match word {
        "live" => [Queue::Append, Queue::Rewrite]
            .iter()
            .fold(Line::default(), |l, q| l.number(area.live_entries(*q) as u64)),
        "is_empty" => Line::default().number(area.is_empty() as u64),
        _ => match area.group_numbers(&mut [0; 8]) {
            Ok(list) => Line::default().numbers(list),
            Err(r) => Line::of("refused").number(r.number()),
        },
    }
}

fn ok() -> Option<Answer> {
    Some(vec!["ok".to_string()])
}

/// A refused call of a context or index, with the position.
fn refused(r: Refusal) -> String {
    Line::of("refused").number(r.number()).maybe_number(r.place().map(|p| p as u64)).0
}

fn file_id(f: FileId) -> galdnyrr::FileId {
    galdnyrr::FileId { queue: queue(f.queue), seq: f.seq }
}
