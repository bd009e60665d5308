//! A window with the panel in it: keys go in, the screen is looked at, and the book's file changes
//! behind the panel's back. Nothing here waits for a fixed time: a screen is waited for until it
//! shows what it should, and the test fails if it has not after a long while.
use crate::pty::{Pty, Settings};
use crate::screen::Screen;
use label_book::Book;
use std::fs;
use std::process::Child;
use std::time::{Duration, Instant};

/// Much longer than anything here takes.
const LIMIT: Duration = Duration::from_secs(20);

pub const LINES: usize = 24;
pub const COLUMNS: usize = 80;

/// The file, in the case's folder, and the command that starts the panel on it. The shell stays
/// afterwards: the terminal's settings go with its session.
const FILE: &str = "lesson.book";
const PANEL: &str = "../terminal lesson.book; echo \"left with $?\"; read line";

/// Keys that the panel does not have, each of one byte, which begins no sign. One of them is sent
/// behind every script of keys; once its refusal shows, the keys before it have been pressed.
const FIRST_MARK: u8 = 0x82;
const LAST_MARK: u8 = 0xBF;

/// Bits of a terminal's settings and one of its keys, by which it is made an unusual terminal.
const ANY_STARTS_OUTPUT: u32 = 0o4000;
const SHOW_ERASING: u32 = 0o20;
const ERASE_KEY: usize = 2;

/// What the panel should show, besides the line of help.
#[derive(Clone, Default)]
pub struct Shown {
    pub names: usize,
    pub text: String,
    /// The names offered, with their scores.
    pub rows: Vec<(u32, String)>,
    pub highlight: usize,
    pub loaded: String,
    /// Over two lines if they are long.
    pub news: String,
}

impl Shown {
    /// The lines of a screen of 80 columns.
    fn lines(&self) -> Vec<String> {
        let noun = if self.names == 1 { "name" } else { "names" };
        let mut lines = vec![String::new(); LINES];
        lines[0] = format!("{} {noun} in {FILE}", self.names);
        lines[2] = format!("Set-up: {}", self.text).trim_end().to_string();
        for (i, (score, name)) in self.rows.iter().enumerate() {
            let mark = if i == self.highlight { '>' } else { ' ' };
            lines[4 + i] = format!("{mark} {score:>10}  {name}").trim_end().to_string();
        }
        lines[10] = self.loaded.trim_end().to_string();
        for (i, line) in self.news.lines().enumerate() {
            lines[11 + i] = line.to_string();
        }
        lines[14] = "Type a name's start. Up and Down choose, Enter takes, Esc Esc leaves.".into();
        lines
    }

    /// The lines that are in reverse, counted from 1.
    fn reversed(&self) -> Vec<usize> {
        if self.rows.is_empty() {
            return Vec::new();
        }
        vec![5 + self.highlight]
    }
}

pub struct Window {
    case: String,
    folder: String,
    pub pty: Pty,
    pub screen: Screen,
    shell: Child,
    /// The terminal's settings before anything ran in it.
    pub found: Settings,
    mark: u8,
}

/// A folder of its own for each case, in that of the program.
fn folder_of(case: &str) -> String {
    let folder = format!("{}/{}", crate::FOLDER, case.replace(' ', "-"));
    fs::create_dir_all(&folder).expect("a folder for the case");
    folder
}

impl Window {
    /// A command in a window of its own, with a file beside it.
    pub fn with_command(case: &str, command: &str, bytes: &[u8], size: (usize, usize)) -> Window {
        let folder = folder_of(case);
        fs::write(format!("{folder}/{FILE}"), bytes).expect("the book's file");
        let pty = Pty::open(size.0, size.1);
        let mut found = pty.settings();
        found.input |= ANY_STARTS_OUTPUT;
        found.local &= !SHOW_ERASING;
        found.keys[ERASE_KEY] = b'#';
        pty.set(&found);
        let shell = pty.run(&folder, command);
        let screen = Screen::new(size.0, size.1);
        Window { case: case.into(), folder, pty, screen, shell, found, mark: FIRST_MARK }
    }

    /// The panel in a window, with its first screen.
    pub fn of_size(case: &str, book: &Book, size: (usize, usize)) -> Window {
        let mut window = Window::with_command(case, PANEL, book.image(), size);
        window.wait("the panel", |screen| screen.is_other() && screen.line(3) == "Set-up:");
        window
    }

    pub fn new(case: &str, book: &Book) -> Window {
        Window::of_size(case, book, (LINES, COLUMNS))
    }

    pub fn fail(&self, what: &str) -> ! {
        panic!("{}: {what}; the screen is\n{}", self.case, self.screen.all());
    }

    /// Reads the screen until it is whole and shows what is wanted.
    pub fn wait(&mut self, what: &str, wanted: impl Fn(&Screen) -> bool) {
        let until = Instant::now() + LIMIT;
        while !(self.screen.is_whole() && wanted(&self.screen)) {
            match self.pty.receive(until) {
                Some(bytes) => self.screen.write(&bytes),
                None => self.fail(&format!("not seen: {what}")),
            }
        }
    }

    pub fn wait_for_news(&mut self, news: &str) {
        let [first, second] = [0, 1].map(|i| news.lines().nth(i).unwrap_or_default());
        let shows = |screen: &Screen| screen.line(12) == first && screen.line(13) == second;
        self.wait(&format!("the news {news:?}"), |screen| screen.is_other() && shows(screen));
    }

    /// Sends keys, and waits until they have been pressed. Gives what is said about the key behind
    /// them.
    pub fn press(&mut self, keys: &[u8]) -> String {
        let mark = self.mark;
        self.mark = if mark == LAST_MARK { FIRST_MARK } else { mark + 1 };
        self.pty.send(&[keys, &[mark]].concat());
        let news = format!("key {mark:02X} refused, 8: the panel has no such key");
        self.wait_for_news(&news);
        news
    }

    /// Sends keys and compares the screen with what it should be then; its news are those of the
    /// key that is sent behind them.
    pub fn press_and_see(&mut self, keys: &[u8], shown: &Shown) {
        let news = self.press(keys);
        self.see(&Shown { news, ..shown.clone() });
    }

    /// Makes the window larger or smaller, and waits until it shows as much of this as it has room
    /// for.
    pub fn resize_and_wait(&mut self, lines: usize, columns: usize, shown: &Shown) {
        self.screen.resize(lines, columns);
        self.pty.resize(lines, columns);
        let cut = |line: &String| {
            let signs: String = line.chars().take(columns).collect();
            signs.trim_end().to_string()
        };
        let mut wanted: Vec<String> = shown.lines().iter().map(cut).collect();
        wanted.truncate(lines);
        let all =
            |screen: &Screen| (1..=lines).map(|number| screen.line(number)).collect::<Vec<_>>();
        self.wait(&format!("{lines} lines of {columns} columns"), |screen| all(screen) == wanted);
        assert_eq!(self.screen.scrolled, 0, "{}: lines have left the screen", self.case);
    }

    /// Compares the whole screen as it is.
    pub fn see(&self, shown: &Shown) {
        let wanted = shown.lines();
        for (i, line) in wanted.iter().enumerate() {
            if self.screen.line(i + 1) != *line {
                self.fail(&format!("line {} should be\n|{line}\n", i + 1));
            }
        }
        if self.screen.reversed() != shown.reversed() {
            self.fail(&format!("in reverse are lines {:?}", self.screen.reversed()));
        }
        let column = "Set-up: ".len() + shown.text.chars().count() + 1;
        if self.screen.cursor_at() != (3, column) {
            self.fail(&format!("the cursor is at {:?}", self.screen.cursor_at()));
        }
    }

    /// Waits until the panel has left with a status, and looks that the terminal is as it was.
    pub fn wait_until_left(&mut self, status: i32) {
        let shell = |screen: &Screen| !screen.is_other();
        self.wait("the shell", |screen| shell(screen) && screen.all().contains("left with"));
        if !self.screen.all().contains(&format!("|left with {status}\n")) {
            self.fail(&format!("the status should be {status}"));
        }
        assert_eq!(self.pty.settings(), self.found, "{}: the terminal's settings", self.case);
    }

    /// Puts other bytes in the file's place, as `labelbook` saves: a new file, renamed.
    pub fn save(&self, bytes: &[u8]) {
        let new = format!("{}/new.tmp", self.folder);
        fs::write(&new, bytes).expect("the new file");
        fs::rename(&new, self.path()).expect("it takes the old one's place");
    }

    /// The path of the book's file.
    pub fn path(&self) -> String {
        format!("{}/{FILE}", self.folder)
    }
}

/// The shell and what it runs end with their terminal.
impl Drop for Window {
    fn drop(&mut self) {
        self.shell.kill().ok();
        self.shell.wait().ok();
    }
}

/// Waits until a process is no more, or only its status is waited for.
pub fn wait_until_ended(process: i32) {
    let until = Instant::now() + LIMIT;
    let path = format!("/proc/{process}/stat");
    while fs::read_to_string(&path).is_ok_and(|stat| !stat.contains(") Z ")) {
        assert!(Instant::now() < until, "the panel goes on without its window");
        std::thread::sleep(Duration::from_millis(10));
    }
}
