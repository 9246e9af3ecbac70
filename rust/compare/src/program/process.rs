//! The Rattle program as a process: a class of slices and a list on its standard input, its answers on its standard output.

use std::io;
use std::process::Command;

use reference::State;
use reference::line::{CLASS, LARGEST_LIST, call, written};

use super::faults;
use crate::child;

/// The program, and the fault that is put into its answers.
pub struct Program {
    path: String,
    fault: Option<String>,
}

/// Lines of a list of which the last has an answer: those before it are skipped.
#[derive(Clone, Debug)]
pub struct Asked {
    text: String,
    rand: String,
    after: Option<State>,
}

impl Asked {
    /// This line alone.
    pub fn new(text: String) -> Self {
        let answer = call(&text).map(|call| call.answer());
        let after = answer.as_ref().map(|answer| answer.state);
        let rand = written(answer);
        Self { text, rand, after }
    }

    /// The same behind a line that is skipped.
    pub fn behind(self, skipped: &str) -> Self {
        Self {
            text: format!("{skipped}\n{}", self.text),
            ..self
        }
    }

    /// The lines.
    pub fn text(&self) -> &str {
        &self.text
    }

    /// The line that has an answer.
    pub fn line(&self) -> &str {
        let lines = self.text.rsplit_once('\n');
        lines.map_or(&self.text, |(_, line)| line)
    }

    /// rand's answer.
    pub fn rand(&self) -> &str {
        &self.rand
    }

    /// The state that rand's answer has, where the line is no wrong one.
    pub fn after(&self) -> Option<State> {
        self.after
    }

    /// How many bytes it takes of a list.
    pub fn size(&self) -> usize {
        self.text.len() + 1
    }
}

/// What the program reads: the class, and these lines.
fn list(lines: &[Asked]) -> String {
    let lines = lines.iter().map(Asked::text);
    let lines = [CLASS].into_iter().chain(lines);
    lines.flat_map(|line| [line, "\n"]).collect()
}

impl Program {
    /// The program at this path, with this fault planted, or with none where no line can have one of that name.
    ///
    /// # Errors
    ///
    /// If it cannot be run.
    pub fn new(path: &str, plant: Option<&str>) -> io::Result<Self> {
        let program = Self {
            path: path.to_owned(),
            fault: plant.map(str::to_owned),
        };
        program.run(&[])?;
        Ok(program)
    }

    /// The program's answer to each line, in as many runs as that takes.
    pub fn answers(&self, lines: &[Asked]) -> Vec<String> {
        self.once(lines).unwrap_or_else(|| {
            let (front, back) = lines.split_at(lines.len() / 2);
            [self.answers(front), self.answers(back)].concat()
        })
    }

    /// The first of the lines that is not answered as rand does, and the program's answer to it.
    pub fn first(&self, lines: &[Asked]) -> Option<(Asked, String)> {
        let Some(answers) = self.once(lines) else {
            let (front, back) = lines.split_at(lines.len() / 2);
            return self.first(front).or_else(|| self.first(back));
        };
        let mut both = lines.iter().zip(answers);
        let found = both.find(|(line, answer)| line.rand != *answer);
        found.map(|(line, answer)| (line.clone(), answer))
    }

    /// The answers that one run gives, with the planted fault where it shows. None where there is not one line for each: then it
    /// cannot be seen which answer is whose, and less has to be asked at once. So too where the program has no room for the list.
    pub fn once(&self, lines: &[Asked]) -> Option<Vec<String>> {
        if list(lines).len() > LARGEST_LIST && lines.len() > 1 {
            return None;
        }
        let mut answers = self
            .run(lines)
            .unwrap_or_else(|error| panic!("{}: {error}", self.path));
        if answers.len() != lines.len() {
            if lines.len() > 1 {
                return None;
            }
            answers = vec![format!("{} lines: {}", answers.len(), answers.join("; "))];
        }
        self.plant(lines, &mut answers);
        Some(answers)
    }

    /// Puts the fault, if there is one, into the answers in which it shows.
    fn plant(&self, lines: &[Asked], answers: &mut [String]) {
        let Some(fault) = &self.fault else {
            return;
        };
        for (line, answer) in lines.iter().zip(answers) {
            let faulty = faults::answer(line.line(), fault);
            if faulty != line.rand {
                *answer = faulty;
            }
        }
    }

    /// The lines that the program writes. Text behind the last of them counts as one more, and so does an end that is no success.
    fn run(&self, lines: &[Asked]) -> io::Result<Vec<String>> {
        let mut command = Command::new(&self.path);
        let output = child::output(&mut command, &[list(lines).as_bytes()])?;
        let text = String::from_utf8_lossy(&output.stdout);
        // Not `lines`: a carriage return is part of an answer, which it makes another.
        let mut answers: Vec<String> = text.split('\n').map(str::to_owned).collect();
        if answers.last().is_some_and(String::is_empty) {
            answers.pop();
        }
        if !output.status.success() {
            answers.push(output.status.to_string());
        }
        Ok(answers)
    }
}

#[cfg(test)]
mod tests {
    use reference::line::{LARGEST_LIST, Name};

    use super::{Asked, Program, list};
    use crate::inputs::Source;
    use crate::program::{faults, random};

    /// A program that gives back the lines behind the class.
    const ECHO: &str = concat!(env!("CARGO_MANIFEST_DIR"), "/tests/echo");

    /// Five lines. Of each program only what it does with lines matters.
    fn answers(program: &str) -> Vec<String> {
        let lines = (0..5).map(|seed| Asked::new(format!("seed {seed}")));
        let program = Program::new(program, None).expect("the program runs");
        program.answers(&lines.collect::<Vec<_>>())
    }

    #[test]
    fn an_answer_is_a_line() {
        assert_eq!(answers(ECHO)[3], "seed 3");
    }

    #[test]
    fn a_call_may_have_no_answer() {
        assert_eq!(answers("true"), ["0 lines: "; 5]);
    }

    #[test]
    fn an_end_that_is_no_success_is_an_answer() {
        assert!(answers("false")[4].contains("exit"));
    }

    #[test]
    fn a_line_may_stand_behind_skipped_ones() {
        let asked = Asked::new("seed 1".to_owned()).behind("").behind("# a");
        assert_eq!(asked.text(), "# a\n\nseed 1");
        assert_eq!(asked.line(), "seed 1");
        assert_eq!(asked.rand(), Asked::new("seed 1".to_owned()).rand());
        assert_eq!(asked.size(), 12);
    }

    #[test]
    fn a_list_begins_with_its_class() {
        let lines = ["seed 1", "seed 2"].map(|line| Asked::new(line.to_owned()));
        assert_eq!(list(&lines), "s\nseed 1\nseed 2\n");
    }

    /// What one run cannot take is asked in more. The line of the class counts.
    #[test]
    fn a_list_that_is_too_large_is_asked_in_parts() {
        let program = Program::new(ECHO, None).expect("the program runs");
        let most = LARGEST_LIST - list(&[]).len() - "\nx\n".len();
        for (len, is_taken) in [(most, true), (most + 1, false)] {
            let lines = ["x".repeat(len), "x".to_owned()].map(Asked::new);
            assert_eq!(program.once(&lines).is_some(), is_taken);
            assert_eq!(program.answers(&lines).len(), 2);
        }
    }

    /// A line of each kind for each fault that it can have, in which the fault shows.
    fn lines_with_faults() -> Vec<(Asked, &'static str)> {
        let mut lines = Vec::new();
        for name in Name::ALL {
            for fault in faults::of(name) {
                let mut source = Source::new(1);
                let mut asked = (0..).map(|_| random::line(name, &mut source).to_string());
                let shows = |text: &String| faults::shows(text, fault);
                lines.extend(asked.find(shows).map(|text| (Asked::new(text), fault)));
            }
        }
        lines
    }

    /// Answers that are rand's stay so without a fault, and one that is planted is in its line.
    #[test]
    fn a_planted_fault_is_in_the_answers() {
        let lines = lines_with_faults();
        let asked: Vec<Asked> = lines.iter().map(|(line, _)| line.clone()).collect();
        let rand: Vec<String> = asked.iter().map(|line| line.rand().to_owned()).collect();
        let planted = |plant| {
            let program = Program::new("true", plant).expect("the program runs");
            let mut answers = rand.clone();
            program.plant(&asked, &mut answers);
            answers
        };
        assert_eq!(planted(None), rand);
        for (at, (line, fault)) in lines.iter().enumerate() {
            assert_ne!(planted(Some(fault))[at], rand[at], "{fault} in {line:?}");
        }
    }
}
