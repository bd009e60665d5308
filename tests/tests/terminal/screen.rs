//! A terminal's screen, as far as the panel and a shell use one: what stands where after the bytes
//! that were written to it.

/// A place on the screen: its sign, and whether it is in reverse.
#[derive(Clone, Copy, PartialEq)]
struct Cell {
    sign: char,
    reverse: bool,
}

const BLANK: Cell = Cell { sign: ' ', reverse: false };
/// What stands where nobody has drawn yet.
const DIRT: Cell = Cell { sign: '#', reverse: true };

/// The cells of a screen, and where the next sign goes, both from 0. A column as large as the
/// width says that the line is full: the next sign goes to the next line.
#[derive(Clone)]
struct Page {
    cells: Vec<Vec<Cell>>,
    line: usize,
    column: usize,
}

pub struct Screen {
    lines: usize,
    columns: usize,
    page: Page,
    /// The page of the shell, while the panel has the other one.
    kept: Option<Page>,
    reverse: bool,
    cursor: bool,
    /// How often the panel's page was opened.
    pub opened: usize,
    /// How often a line has left the screen at its top.
    pub scrolled: usize,
    /// The bytes of a sequence that has not ended, or of a sign.
    begun: Vec<u8>,
}

impl Page {
    fn filled(with: Cell, lines: usize, columns: usize) -> Page {
        Page { cells: vec![vec![with; columns]; lines], line: 0, column: 0 }
    }
}

impl Screen {
    pub fn new(lines: usize, columns: usize) -> Screen {
        Screen {
            lines,
            columns,
            page: Page::filled(BLANK, lines, columns),
            kept: None,
            reverse: false,
            cursor: true,
            opened: 0,
            scrolled: 0,
            begun: Vec::new(),
        }
    }

    /// Another size: nothing is left of what stood there.
    pub fn resize(&mut self, lines: usize, columns: usize) {
        (self.lines, self.columns) = (lines, columns);
        self.page = Page::filled(DIRT, lines, columns);
    }

    /// Whether the panel's page is shown, not the shell's.
    pub fn is_other(&self) -> bool {
        self.kept.is_some()
    }

    /// Whether a drawing is complete: the panel hides the cursor at its start.
    pub fn is_whole(&self) -> bool {
        self.cursor && self.begun.is_empty()
    }

    /// A line without the blanks at its end; "" where the screen has no such line.
    pub fn line(&self, number: usize) -> String {
        let Some(cells) = self.page.cells.get(number - 1) else { return String::new() };
        let signs: String = cells.iter().map(|cell| cell.sign).collect();
        signs.trim_end().to_string()
    }

    /// The lines that have a sign in reverse.
    pub fn reversed(&self) -> Vec<usize> {
        let is_reversed = |cells: &Vec<Cell>| cells.iter().any(|cell| cell.reverse);
        (1..=self.lines).filter(|number| is_reversed(&self.page.cells[number - 1])).collect()
    }

    /// The cursor's line and column, both from 1.
    pub fn cursor_at(&self) -> (usize, usize) {
        (self.page.line + 1, self.page.column.min(self.columns - 1) + 1)
    }

    /// Everything, for a message.
    pub fn all(&self) -> String {
        (1..=self.lines).map(|number| format!("|{}\n", self.line(number))).collect()
    }

    pub fn write(&mut self, bytes: &[u8]) {
        bytes.iter().for_each(|byte| self.byte(*byte));
    }

    fn byte(&mut self, byte: u8) {
        if matches!(self.begun[..], [0xC2 | 0xCE]) {
            let bytes = [std::mem::take(&mut self.begun)[0], byte];
            match &bytes {
                b"\xC2\xB5" => self.sign('µ'),
                b"\xCE\xA9" => self.sign('Ω'),
                _ => panic!("bytes {bytes:02X?} were written to the screen"),
            }
            return;
        }
        if !self.begun.is_empty() {
            self.begun.push(byte);
            if self.begun.len() > 2 && (0x40..=0x7E).contains(&byte) {
                let sequence = std::mem::take(&mut self.begun);
                self.sequence(&sequence);
            }
            return;
        }
        match byte {
            0x1B | 0xC2 | 0xCE => self.begun.push(byte),
            b'\r' => self.page.column = 0,
            b'\n' => self.next_line(),
            0x20..=0x7E => self.sign(byte as char),
            _ => panic!("byte {byte:02X} was written to the screen"),
        }
    }

    fn next_line(&mut self) {
        if self.page.line + 1 < self.lines {
            self.page.line += 1;
            return;
        }
        self.page.cells.remove(0);
        self.page.cells.push(vec![BLANK; self.columns]);
        self.scrolled += 1;
    }

    fn sign(&mut self, sign: char) {
        if self.page.column == self.columns {
            self.page.column = 0;
            self.next_line();
        }
        let cell = Cell { sign, reverse: self.reverse };
        self.page.cells[self.page.line][self.page.column] = cell;
        self.page.column += 1;
    }

    /// A whole sequence: ESC, [, parameters, a last byte.
    fn sequence(&mut self, sequence: &[u8]) {
        let text = std::str::from_utf8(sequence).expect("a sequence in ASCII");
        match &text[1..] {
            "[m" => self.reverse = false,
            "[7m" => self.reverse = true,
            "[?25l" => self.cursor = false,
            "[?25h" => self.cursor = true,
            "[K" => self.clear_line(),
            "[J" => {
                self.clear_line();
                self.page.cells[self.page.line + 1..].fill(vec![BLANK; self.columns]);
            }
            "[?1049h" => {
                let other = Page::filled(DIRT, self.lines, self.columns);
                let shell = std::mem::replace(&mut self.page, other);
                self.kept.get_or_insert(shell);
                self.opened += 1;
            }
            "[?1049l" => {
                self.page = self.kept.take().expect("the other screen is left once");
            }
            rest => self.move_to(rest),
        }
    }

    fn clear_line(&mut self) {
        let column = self.page.column.min(self.columns - 1);
        self.page.cells[self.page.line][column..].fill(BLANK);
    }

    /// `[LINE;COLUMNH`, which stays on the screen.
    fn move_to(&mut self, rest: &str) {
        let numbers = rest.strip_prefix('[').and_then(|rest| rest.strip_suffix('H'));
        let numbers = numbers.and_then(|numbers| numbers.split_once(';'));
        let Some((line, column)) = numbers else { panic!("the sequence ESC {rest}") };
        let [line, column] =
            [line, column].map(|number| number.parse::<usize>().expect("a number"));
        self.page.line = line.clamp(1, self.lines) - 1;
        self.page.column = column.clamp(1, self.columns) - 1;
    }
}
