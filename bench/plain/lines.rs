//! The lines of an output.

use super::flows::Record;
use super::nodes::Path;
use super::owners::Refused;

/// The output, and how many packets there were and how many of them were found.
#[derive(Default)]
pub struct Report {
    pub text: Vec<u8>,
    packets: u32,
    found: u32,
}

impl Report {
    /// Puts words and numbers in turn.
    pub fn put(&mut self, parts: &[(&str, usize)]) {
        for &(word, number) in parts {
            self.text.extend_from_slice(word.as_bytes());
            self.put_number(number);
        }
    }

    fn put_number(&mut self, mut number: usize) {
        let mut digits = [0; 20];
        let mut at = digits.len();
        loop {
            at -= 1;
            digits[at] = b'0' + (number % 10) as u8;
            number /= 10;
            if number == 0 {
                break;
            }
        }
        self.text.extend_from_slice(&digits[at..]);
    }

    pub fn end(&mut self, words: &str) {
        self.text.extend_from_slice(words.as_bytes());
        self.text.push(b'\n');
    }

    pub fn packet(&mut self, ingress: u8, path: Path) {
        let (packet, seen) = (self.packets as usize, path.seen as usize);
        self.packets += 1;
        self.put(&[("packet ", packet), (" in ", ingress.into())]);
        let Some((node, version, record)) = path.at else {
            self.put(&[(" seen ", seen)]);
            return self.end(" unknown");
        };
        let hops = usize::from(node != ingress);
        self.put(&[(" to ", node.into()), (" hops ", hops), (" seen ", seen), (" fib ", version as usize)]);
        let Some(Record { teid, base }) = record else {
            return self.end(" unknown");
        };
        self.found += 1;
        let [a, b, c, d] = base.to_be_bytes().map(usize::from);
        self.put(&[(" teid ", teid as usize), (" base ", a), (".", b), (".", c), (".", d)]);
        self.end("");
    }

    pub fn update(&mut self, kind: &str, reply: &Result<(usize, usize), Refused>) {
        self.text.extend_from_slice(kind.as_bytes());
        match *reply {
            Ok((owner, turn)) => self.put(&[(" accepted owner ", owner), (" turn ", turn)]),
            Err(Refused::Spent) => return self.end(" refused spent"),
            Err(Refused::Absent) => return self.end(" refused absent"),
            Err(Refused::BlockFull { block }) => self.put(&[(" refused blockfull block ", block)]),
            Err(Refused::RowsFull { needed, free }) => {
                self.put(&[(" refused rowsfull needed ", needed), (" free ", free)]);
            }
        }
        self.end("");
    }

    pub fn done(&mut self) {
        let (packets, found) = (self.packets as usize, self.found as usize);
        self.put(&[("done packets ", packets), (" found ", found), (" unknown ", packets - found)]);
        self.end("");
    }
}
