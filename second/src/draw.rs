//! A run as a picture: one column a call.

pub mod seen;
pub mod svg;

use crate::history::{Operation, Word};
use crate::listing::admitted;
use crate::map::Address;
use crate::records::OPERATION_LENGTH;
use crate::setup::{Configuration, Mode};
use seen::{calls, Bank, Call, Turn};
use svg::{fitting, Frame, Picture, Side, Text, DARK, GREY, INK, LIGHT, PAPER, SHADE};

/// More calls than these would not be legible side by side.
pub const MOST_CALLS: usize = 24;

const WIDEST: f64 = 900.0;
const NARROWEST: f64 = 640.0;
const WIDEST_COLUMN: f64 = 72.0;
const LABELS: f64 = 112.0;
const MARGIN: f64 = 8.0;
const SIZE: f64 = 11.0;
/// A word that would have to be smaller goes over two lines.
const SMALLEST: f64 = 8.0;
const MARK: f64 = 4.0;
/// A buffer's places are boxes down to this width, and one bar where they would be narrower.
const NARROWEST_BOX: f64 = 5.0;
const WIDEST_BOX: f64 = 12.0;
const BOX: f64 = 10.0;

/// The heights of the picture's rows, from the top.
const HEADING: f64 = 44.0;
const NUMBER: f64 = 20.0;
const OFFERED: f64 = 44.0;
const ANSWER: f64 = 22.0;
const ON_THE_WAY: f64 = 60.0;
const LEAVING: f64 = 32.0;
const BANK: f64 = 36.0;
const LIVE_COUNT: f64 = 20.0;
const LIVE_ROW: f64 = 15.0;
const LEGEND: f64 = 46.0;

/// The picture of a run over the setup, if there is one, and the operations; why there is none where it is refused.
pub fn drawing(setup: Option<&[u8]>, operations: &[u8]) -> Result<String, String> {
    let configuration = admitted(setup).map_err(|answer| format!("setup {answer}"))?;
    let calls = calls(&configuration, operations, MOST_CALLS);
    let sheet = Sheet::new(configuration, calls);
    Ok(sheet.drawn(operations.chunks(OPERATION_LENGTH).len()))
}

struct Sheet {
    configuration: Configuration,
    calls: Vec<Call>,
    column: f64,
    picture: Picture,
}

impl Sheet {
    fn new(configuration: Configuration, calls: Vec<Call>) -> Sheet {
        let room = WIDEST - LABELS - MARGIN;
        Sheet {
            column: (room / calls.len().max(1) as f64).min(WIDEST_COLUMN),
            configuration,
            calls,
            picture: Picture::default(),
        }
    }

    fn drawn(mut self, offered: usize) -> String {
        let (width, height) = (self.width(), self.height());
        let whole = Frame {
            x: 0.0,
            y: 0.0,
            width,
            height,
        };
        self.picture.rectangle(whole, PAPER, "none");
        self.heading(offered);
        self.labels();
        for number in 0..self.calls.len() {
            self.picture.open("call");
            self.call(number);
            self.picture.close();
        }
        self.reads();
        self.legend(height - LEGEND);
        self.picture.finished(width, height)
    }

    /// Where the columns end.
    fn right(&self) -> f64 {
        LABELS + self.column * self.calls.len() as f64
    }

    fn width(&self) -> f64 {
        (self.right() + MARGIN).max(NARROWEST)
    }

    fn height(&self) -> f64 {
        let live = self.calls.iter().map(|call| call.live.len()).max();
        self.live_top() + LIVE_COUNT + LIVE_ROW * live.unwrap_or(0) as f64 + MARGIN + LEGEND
    }

    fn reads_top(&self) -> f64 {
        HEADING + NUMBER + OFFERED + ANSWER
    }

    fn banks_top(&self) -> f64 {
        self.reads_top() + ON_THE_WAY + LEAVING
    }

    fn live_top(&self) -> f64 {
        self.banks_top() + BANK * self.configuration.banks() as f64
    }

    /// The middle of a column.
    fn middle(&self, number: usize) -> f64 {
        LABELS + self.column * (number as f64 + 0.5)
    }

    fn heading(&mut self, offered: usize) {
        let Configuration {
            mode,
            a,
            s,
            m,
            k,
            delta,
            c,
            u,
            v,
        } = self.configuration;
        let mode = match mode {
            Mode::Plain => "plain",
            Mode::Merging => "merging",
        };
        let setup = format!(
            "{mode}, a = {a}, s = {s}, m = {m}, K = {k}, Δ = {delta}, C = {c}, u = {u}, v = {v}"
        );
        self.label(&setup, 18.0);
        let calls = match offered > MOST_CALLS {
            true => format!("one column a call; the first {MOST_CALLS} of {offered} records"),
            false => "one column a call".to_string(),
        };
        self.label(&calls, 34.0);
    }

    fn labels(&mut self) {
        let mut y = HEADING;
        let rows = [
            ("call", NUMBER),
            ("offered", OFFERED),
            ("answer", ANSWER),
            ("reads on the way", ON_THE_WAY),
            ("word leaving", LEAVING),
        ];
        for (name, height) in rows {
            self.label(name, y + 14.0);
            y += height;
        }
        for bank in 0..self.configuration.banks() {
            self.label(&format!("bank {bank}: turn"), y + 13.0);
            self.label("buffer after", y + 28.0);
            y += BANK;
        }
        let live = format!("rows live, of {}", self.configuration.c);
        self.label(&live, y + 14.0);
    }

    /// A text at the left border.
    fn label(&mut self, said: &str, y: f64) {
        self.text_at(MARGIN, y, said);
    }

    /// A text in the middle of a column.
    fn say(&mut self, number: usize, y: f64, said: &str, colour: &str) {
        let size = fitting(said, SIZE, self.column - 3.0);
        let text = Text { said, size, colour };
        let x = self.middle(number);
        self.picture.text(x, y, text, Side::Middle);
    }

    fn say_word(&mut self, number: usize, y: f64, word: Word) {
        let said = word.to_string();
        if fitting(&said, SIZE, self.column - 3.0) >= SMALLEST {
            self.say(number, y, &said, INK);
        } else {
            let (high, low) = said.split_at(said.len() / 2);
            self.say(number, y, high, INK);
            self.say(number, y + 10.0, low, INK);
        }
    }

    fn call(&mut self, number: usize) {
        let column = Frame {
            x: LABELS + self.column * number as f64,
            y: HEADING,
            width: self.column,
            height: self.height() - LEGEND - HEADING,
        };
        let shade = if number % 2 == 0 { SHADE } else { PAPER };
        self.picture.rectangle(column, shade, "none");
        self.say(number, HEADING + 14.0, &number.to_string(), INK);
        self.offered(number);
        self.answer(number);
        for bank in 0..self.configuration.banks() {
            let y = self.banks_top() + BANK * bank as f64;
            self.bank(number, bank, y);
        }
        self.live(number);
    }

    fn offered(&mut self, number: usize) {
        let y = HEADING + NUMBER;
        match self.calls[number].offered {
            None => self.say(number, y + 13.0, "bad", INK),
            Some(Operation::Idle) => self.say(number, y + 13.0, "idle", INK),
            Some(operation) => {
                self.say(number, y + 13.0, &short(operation), INK);
                if let Operation::Write(_, word) = operation {
                    self.say_word(number, y + 27.0, word);
                }
            }
        }
    }

    /// The answer, framed where it is not 0, and the word that leaves.
    fn answer(&mut self, number: usize) {
        let (answer, word) = (self.calls[number].answer.number(), self.calls[number].word);
        let y = HEADING + NUMBER + OFFERED;
        if answer != 0 {
            let frame = Frame {
                x: self.middle(number) - 8.0,
                y: y + 2.0,
                width: 16.0,
                height: 16.0,
            };
            self.picture.rectangle(frame, PAPER, INK);
        }
        self.say(number, y + 14.0, &answer.to_string(), INK);
        let y = self.banks_top() - LEAVING + 14.0;
        match word {
            Some(word) => self.say_word(number, y, word),
            None => self.say(number, y, "-", INK),
        }
    }

    fn bank(&mut self, number: usize, bank: usize, y: f64) {
        let Bank { turn, ref writes } = self.calls[number].banks[bank];
        let writes = writes.clone();
        let x = self.middle(number);
        match turn {
            Turn::Another => {}
            Turn::Unused => self.picture.circle(x, y + 9.0, MARK, PAPER),
            Turn::Used => self.picture.circle(x, y + 9.0, MARK, INK),
        }
        let places = self.configuration.k as f64;
        let width = ((self.column - 6.0) / places).min(WIDEST_BOX);
        if width < NARROWEST_BOX {
            self.bar(number, writes.len(), y + 18.0);
            return;
        }
        for place in 0..self.configuration.k {
            let frame = Frame {
                x: x + width * (place as f64 - places / 2.0),
                y: y + 18.0,
                width: width - 1.0,
                height: BOX,
            };
            let fill = writes
                .get(place)
                .map_or(PAPER, |&is_write| colour(is_write));
            self.picture.rectangle(frame, fill, INK);
        }
    }

    /// A buffer of many places: one bar with the number of entries in it.
    fn bar(&mut self, number: usize, waiting: usize, y: f64) {
        let whole = Frame {
            x: self.middle(number) - self.column / 2.0 + 3.0,
            y,
            width: self.column - 6.0,
            height: BOX + 2.0,
        };
        let width = whole.width * waiting as f64 / self.configuration.k as f64;
        self.picture.rectangle(whole, PAPER, "none");
        self.picture
            .rectangle(Frame { width, ..whole }, GREY, "none");
        self.picture.rectangle(whole, "none", INK);
        self.say(number, y + 10.0, &waiting.to_string(), INK);
    }

    fn live(&mut self, number: usize) {
        let live = self.calls[number].live.clone();
        let y = self.live_top();
        self.say(number, y + 14.0, &live.len().to_string(), INK);
        for (place, &row) in live.iter().enumerate() {
            let is_write = matches!(row, Operation::Write(..));
            let frame = Frame {
                x: LABELS + self.column * number as f64 + 3.0,
                y: y + LIVE_COUNT + LIVE_ROW * place as f64,
                width: self.column - 6.0,
                height: LIVE_ROW - 2.0,
            };
            self.picture.rectangle(frame, colour(is_write), INK);
            let ink = if is_write { PAPER } else { INK };
            self.say(number, frame.y + 10.5, &short(row), ink);
        }
    }

    /// A line for each read taken, down to the word it leaves with; reads leave in the order they came, so none cross.
    fn reads(&mut self) {
        let (top, bottom) = (self.reads_top() + 2.0, self.reads_top() + ON_THE_WAY);
        self.picture.open("reads");
        for number in 0..self.calls.len() {
            if !self.calls[number].takes_a_read() {
                continue;
            }
            let from = (self.middle(number), top);
            let leaving = (0..self.calls.len()).find(|&it| self.calls[it].arrived == Some(number));
            match leaving {
                Some(call) => self
                    .picture
                    .stroke(from, (self.middle(call), bottom), false),
                None => {
                    let to = self.cut(from, bottom);
                    self.picture.stroke(from, to, true);
                }
            }
            self.picture.circle(from.0, top, 2.0, INK);
        }
        self.picture.close();
    }

    /// Where the line of a read that leaves in none of the calls meets the border. A delay beyond the picture is drawn
    /// shorter, so that the lines stay apart.
    fn cut(&self, (x, top): (f64, f64), bottom: f64) -> (f64, f64) {
        let whole = self.column * self.configuration.delta.min(MOST_CALLS) as f64;
        let shown = (self.right() - x).min(whole);
        (x + shown, top + (bottom - top) * shown / whole)
    }

    fn legend(&mut self, y: f64) {
        let marks = y + 14.0;
        self.picture.circle(MARGIN + MARK, marks - 4.0, MARK, INK);
        self.text_at(22.0, marks, "the bank takes an entry");
        self.picture.circle(174.0, marks - 4.0, MARK, PAPER);
        self.text_at(184.0, marks, "its turn, nothing waits");
        for (x, is_write, said) in [(330.0, false, "read"), (390.0, true, "write")] {
            let frame = Frame {
                x,
                y: marks - 10.0,
                width: WIDEST_BOX,
                height: BOX,
            };
            self.picture.rectangle(frame, colour(is_write), INK);
            self.text_at(x + 18.0, marks, said);
        }
        self.text_at(450.0, marks, "oldest left and on top");
        let lines = "A line goes from a read taken to the call in which its word leaves; dashed where it has not left.";
        self.text_at(MARGIN, marks + 18.0, lines);
    }

    fn text_at(&mut self, x: f64, y: f64, said: &str) {
        let text = Text {
            said,
            size: SIZE,
            colour: INK,
        };
        self.picture.text(x, y, text, Side::Left);
    }
}

fn colour(is_write: bool) -> &'static str {
    if is_write {
        DARK
    } else {
        LIGHT
    }
}

/// An operation by its kind and address.
fn short(operation: Operation) -> String {
    match operation {
        Operation::Idle => "idle".to_string(),
        Operation::Read(Address(address)) => format!("R {address}"),
        Operation::Write(Address(address), _) => format!("W {address}"),
    }
}
