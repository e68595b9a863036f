use crate::calls;
use crate::listing::{Arities, Listing};
use crate::memory::{Memory, ANSWER_BYTES};
use crate::refusal::Refusal;
use crate::saved::{self, Damaged, Parts};
use crate::state::{State, StateBuilder};
use crate::text::{Answer, BackupDone, Count, CutDone, Log, Move, ReduceDone};
use crate::value::Value;
use crate::vocabulary::Vocabulary;
use std::fmt;

/// The first refused line of a text that was to be accepted whole.
#[non_exhaustive]
#[derive(Clone, Debug, PartialEq, Eq)]
pub struct Refused {
    /// Why.
    pub refusal: Refusal,
    /// The line's number in the text, from 1 on; 0 where the text ends without an accepted `(start)`.
    pub line: u64,
    /// The line, with a sign in the place of what is no letter.
    pub text: String,
}

impl fmt::Display for Refused {
    fn fmt(&self, f: &mut fmt::Formatter) -> fmt::Result {
        if self.line == 0 {
            return write!(f, "{}: the text ends without an accepted (start)", self.refusal);
        }
        write!(f, "line {} is {}: {}", self.line, self.refusal, self.text)
    }
}

impl std::error::Error for Refused {}

/// What [`Session::cut_all`] did.
#[non_exhaustive]
#[derive(Clone, Copy, Debug, PartialEq, Eq)]
pub struct AllCut {
    /// How many edges went.
    pub cuts: u64,
    /// The rows that are left.
    pub rows: usize,
}

/// A text that is given line by line, so that a model stays loaded between questions.
///
/// A session may move to another thread, and different sessions may work at the same time. A clone goes on from the same place on its own.
///
/// By lines, as the program takes them:
///
/// ```
/// use yindolve::{Answer, Session};
/// let mut session = Session::open();
/// for line in ["(reward 7)", "(action wait)", "(variant only 100)", "(start)", "(objects 1)"] {
///     assert_eq!(session.line(line), Answer::Nothing);
/// }
/// let Answer::Value(value) = session.line("(value)") else { panic!() };
/// assert_eq!(value.to_string(), "7");
/// assert_eq!(session.answer_bytes(), b"(value 7 0 1)\n");
/// assert_eq!(session.end(), Answer::Nothing);
/// ```
///
/// By calls, the model as one text:
///
/// ```
/// use yindolve::Session;
/// let model = "(constant hub)
/// (predicate stock 1)
/// (total 4)
/// (discount 1 2)
/// (reward (if (stock hub) 10 0))
/// (action fill !d)
/// (variant done 3)
/// (becomes (stock ?s) (if (= !d ?s) 1 (if (stock ?s) 1 0)))
/// (variant none 1)
/// (start)
/// ";
/// let mut session = Session::load(model)?;
/// assert_eq!(session.backup()?.rows, 6);
/// assert_eq!(session.cut_all()?.rows, 5);
/// let empty = session.state(2).is("hub", 0)?.finish()?;
/// assert_eq!(session.value(&empty)?.fraction().to_string(), "15/4");
/// let stocked = session.state(2).is("hub", 0)?.fact("stock", &[0])?.finish()?;
/// assert_eq!(session.value(&stocked)?.to_f64(), 15.0);
/// # Ok::<(), Box<dyn std::error::Error>>(())
/// ```
#[derive(Clone)]
pub struct Session {
    memory: Memory,
    answer: Box<[u8]>,
    bytes: usize,
    vocabulary: Vocabulary,
    /// The accepted lines of the model.
    model: Vec<String>,
}

impl fmt::Debug for Session {
    fn fmt(&self, f: &mut fmt::Formatter) -> fmt::Result {
        f.debug_struct("Session").field("lines", &self.lines()).field("steps", &self.steps()).finish_non_exhaustive()
    }
}

impl Default for Session {
    fn default() -> Session {
        Session::open()
    }
}

impl Session {
    /// A session before its first line: about 300 KB of memory, to which lines add only the model's own text.
    pub fn open() -> Session {
        Session {
            memory: Memory::open(),
            answer: vec![0; ANSWER_BYTES].into(),
            bytes: 0,
            vocabulary: Vocabulary::default(),
            model: Vec::new(),
        }
    }

    /// Loads a model: the lines of the text up to its `(start)`. What stands behind it is not read. The last line may lack its line feed.
    ///
    /// # Errors
    /// The first refused line, with its number: a model of which a line is refused is another model. Line 0 with
    /// [`Place`](Refusal::Place) where there is no `(start)`, in an empty text too.
    ///
    /// ```
    /// use yindolve::{Refusal, Session};
    /// let refused = Session::load("(predicate stock 1)\n(reward (if (stok ?s) 10 0))\n(start)\n").unwrap_err();
    /// assert_eq!((refused.refusal, refused.line), (Refusal::Name, 2));
    /// assert_eq!(refused.text, "(reward (if (stok ?s) 10 0))");
    /// ```
    pub fn load(text: impl AsRef<[u8]>) -> Result<Session, Refused> {
        Session::load_part(text.as_ref()).map(|(session, _)| session)
    }

    /// Loads a model as [`load`](Session::load) does, and gives the bytes behind its `(start)` line too.
    ///
    /// # Errors
    /// As for [`load`](Session::load).
    pub fn load_part(text: &[u8]) -> Result<(Session, &[u8]), Refused> {
        let mut session = Session::open();
        let mut rest = text;
        while !session.is_started() && !rest.is_empty() {
            let (line, behind) = match rest.iter().position(|byte| *byte == b'\n') {
                Some(at) => (&rest[..at], &rest[at + 1..]),
                None => (rest, &rest[rest.len()..]),
            };
            rest = behind;
            session.accept(line)?;
        }
        if !session.is_started() {
            return Err(Refused { refusal: Refusal::Place, line: 0, text: String::new() });
        }
        Ok((session, rest))
    }

    /// Answers the lines of a text, such as those of a state. The last line may lack its line feed. Their answers are not kept.
    ///
    /// # Errors
    /// The first refused line, with its number in this text. The lines before it count, those behind it are not read.
    ///
    /// ```
    /// use yindolve::Session;
    /// let mut session = Session::load("(predicate stock 1)\n(reward (if (stock ?s) 10 0))\n(action wait)\n(variant only 100)\n(start)\n")?;
    /// session.tell("(objects 3)\n(true stock 2)\n")?;
    /// assert_eq!(session.value_in_hand()?.value, 10);
    /// assert_eq!(session.tell("(objects 3)\n(true stock 3)\n").unwrap_err().line, 2);
    /// # Ok::<(), Box<dyn std::error::Error>>(())
    /// ```
    pub fn tell(&mut self, text: impl AsRef<[u8]>) -> Result<(), Refused> {
        let text = text.as_ref();
        let lines = text.strip_suffix(b"\n").unwrap_or(text);
        if text.is_empty() {
            return Ok(());
        }
        let before = self.lines();
        for line in lines.split(|byte| *byte == b'\n') {
            self.accept(line).map_err(|refused| Refused { line: refused.line - before, ..refused })?;
        }
        Ok(())
    }

    fn accept(&mut self, line: &[u8]) -> Result<(), Refused> {
        match self.line(line) {
            Answer::Refused { refusal, line: number } => {
                Err(Refused { refusal, line: number, text: String::from_utf8_lossy(line).into_owned() })
            }
            _ => Ok(()),
        }
    }

    /// Answers the next line. The line is given without its line feed. A blank one, of no bytes, passes without effect and counts as a line.
    ///
    /// Bytes behind a text's last line feed are refused with 1, whatever they are; a host that wants the program's answers gives the
    /// line `(` in their place.
    pub fn line(&mut self, line: impl AsRef<[u8]>) -> Answer {
        let line = line.as_ref();
        let was_started = self.is_started();
        self.bytes = self.memory.line(line, &mut self.answer);
        let answer = self.answer_written();
        if answer == Answer::Nothing && !was_started && !line.is_empty() {
            let line = String::from_utf8_lossy(line).into_owned();
            self.vocabulary.note(&line);
            self.model.push(line);
        }
        answer
    }

    /// Answers the whole lines of a block, and gives the bytes of their answers and how many bytes of the block were read: all but those
    /// of a last line that no line feed ends, which are to be given again with what comes behind them. Many lines at a time cost less than
    /// one by one, since the library tests a session's memory once for a block.
    ///
    /// ```
    /// use yindolve::Session;
    /// let mut session = Session::load("(reward 7)\n(action wait)\n(variant only 100)\n(start)\n")?;
    /// let (answers, read) = session.block(b"(objects 1)\n(value)\n(value");
    /// assert_eq!((answers.as_slice(), read), (&b"(value 7 0 1)\n"[..], 20));
    /// # Ok::<(), yindolve::Refused>(())
    /// ```
    pub fn block(&mut self, block: &[u8]) -> (Vec<u8>, usize) {
        let (mut answers, mut read) = (Vec::new(), 0);
        while !self.is_started() {
            let Some(count) = block[read..].iter().position(|byte| *byte == b'\n') else {
                return (answers, read);
            };
            self.line(&block[read..read + count]);
            answers.extend_from_slice(self.answer_bytes());
            read += count + 1;
        }
        let mut room = vec![0; 4 * ANSWER_BYTES];
        loop {
            let (bytes, more) = self.memory.block(&block[read..], &mut room);
            if more == 0 {
                return (answers, read);
            }
            answers.extend_from_slice(&room[..bytes]);
            read += more;
        }
    }

    /// The closing answer of a text that ends here: `(refused 5 0)`, with line 0, where no `(start)` was accepted though a line that is not
    /// blank was met, and else [`Nothing`](Answer::Nothing). The session stays, and more lines may follow.
    ///
    /// ```
    /// use yindolve::{Answer, Refusal, Session};
    /// let mut session = Session::open();
    /// session.line("");
    /// assert_eq!(session.end(), Answer::Nothing);
    /// session.line("(constant hub)");
    /// assert_eq!(session.end(), Answer::Refused { refusal: Refusal::Place, line: 0 });
    /// assert_eq!(session.answer_bytes(), b"(refused 5 0)\n");
    /// ```
    pub fn end(&mut self) -> Answer {
        self.bytes = self.memory.end(&mut self.answer);
        self.answer_written()
    }

    /// The answer that was written last.
    fn answer_written(&self) -> Answer {
        let written = self.answer_bytes();
        Answer::read(written).unwrap_or_else(|| Answer::Other(String::from_utf8_lossy(written).into_owned()))
    }

    /// The bytes of the last answer, as the program prints them.
    pub fn answer_bytes(&self) -> &[u8] {
        &self.answer[..self.bytes]
    }

    /// Whether a `(start)` was accepted, so that the run has begun.
    pub fn is_started(&self) -> bool {
        self.memory.started()
    }

    /// How many lines were answered; each of the calls [`backup`](Session::backup), [`cut`](Session::cut), [`reduce`](Session::reduce),
    /// [`text`](Session::text), [`value_in_hand`](Session::value_in_hand), [`best`](Session::best), [`count`](Session::count) and [`did`](Session::did) counts as one.
    pub fn lines(&self) -> u64 {
        self.memory.lines()
    }

    /// k, how many steps are looked ahead.
    pub fn steps(&self) -> u64 {
        self.memory.steps()
    }

    /// S^k, which values are divided by.
    pub fn scale(&self) -> u64 {
        self.memory.scale()
    }

    /// The names that the model declares.
    pub fn vocabulary(&self) -> &Vocabulary {
        &self.vocabulary
    }

    /// The arities of the model's predicates, for a [`Space`](crate::Space).
    pub fn arities(&self) -> Arities {
        self.memory.arities()
    }

    /// The accepted lines of the model.
    pub fn model_lines(&self) -> &[String] {
        &self.model
    }

    /// The state in hand as lines, `(objects n)` first; none where there is no state.
    pub fn state_lines(&self) -> Vec<String> {
        let memory = &self.memory;
        if memory.objects() == 0 {
            return Vec::new();
        }
        let mut lines = vec![format!("(objects {})", memory.objects())];
        for (number, name) in self.vocabulary.constants().iter().enumerate() {
            lines.extend(memory.placed(number).map(|object| format!("(is {name} {object})")));
        }
        for fact in memory.facts() {
            let (name, arity) = &self.vocabulary.predicates()[fact[0] as usize - 1];
            let objects: String = fact[1..=*arity as usize].iter().map(|object| format!(" {object}")).collect();
            lines.push(format!("(true {name}{objects})"));
        }
        lines
    }

    /// How many objects the state in hand has; 0 where there is no state.
    pub fn objects(&self) -> u64 {
        self.memory.objects()
    }

    /// Looks one step further ahead.
    ///
    /// # Refusals
    /// `Place` before a `(start)`; `Scale`; then the first of `Variables`, `Pairs`, `Value`, `Space` that is met. The value diagram
    /// and k stay.
    pub fn backup(&mut self) -> Result<BackupDone, Refusal> {
        match self.line("(backup)") {
            Answer::Backup(done) => Ok(done),
            Answer::Refused { refusal, .. } => Err(refusal),
            other => unreachable!("{other:?} for (backup)"),
        }
    }

    /// Cuts one edge of the value diagram, which changes no value. How long the search for an edge takes has no useful bound: it is
    /// short for most diagrams, and hours for some made to be hard.
    ///
    /// # Refusals
    /// `Place` before a `(start)`; `Minimum` (a minimum variable); `Paths` (more than 256); `Nothing` (no edge may go).
    pub fn cut(&mut self) -> Result<CutDone, Refusal> {
        match self.line("(cut)") {
            Answer::Cut(done) => Ok(done),
            Answer::Refused { refusal, .. } => Err(refusal),
            other => unreachable!("{other:?} for (cut)"),
        }
    }

    /// Cuts until nothing is left to cut.
    ///
    /// # Refusals
    /// `Place` before a `(start)`; `Minimum` where there is a minimum variable, `Paths` where there are more than 256 paths, both found
    /// before anything is cut.
    pub fn cut_all(&mut self) -> Result<AllCut, Refusal> {
        let mut cuts = 0;
        loop {
            match self.cut() {
                Ok(_) => cuts += 1,
                Err(Refusal::Nothing) => return Ok(AllCut { cuts, rows: self.memory.value().len() }),
                Err(refusal) => return Err(refusal),
            }
        }
    }

    /// Reduces the value diagram by model checking, which changes no value: it sees what several paths do together, and is for small
    /// diagrams without equality, constants and minimum variables. Best once nothing is left to cut.
    ///
    /// # Refusals
    /// `Place` before a `(start)`; `Paths` (more than 256); `Kinds` (an equality, a constant or a minimum variable); `Runs` (more than 512
    /// valuations times paths); `Combinations` (more than 100,000 combinations of paths). The value diagram stays.
    ///
    /// ```
    /// use yindolve::{Refusal, Session};
    /// let mut session = Session::load(include_str!("../../../examples/relay.txt"))?;
    /// session.backup()?;
    /// assert_eq!(session.cut(), Err(Refusal::Nothing));
    /// assert_eq!(session.reduce()?.rows, 7);
    /// # Ok::<(), Box<dyn std::error::Error>>(())
    /// ```
    pub fn reduce(&mut self) -> Result<ReduceDone, Refusal> {
        match self.line("(reduce)") {
            Answer::Reduce(done) => Ok(done),
            Answer::Refused { refusal, .. } => Err(refusal),
            other => unreachable!("{other:?} for (reduce)"),
        }
    }

    /// The value diagram as one nested form, with variables `?v0`, `?v1` and so on and minimum variables `%v0`, `%v1` and so on: `(reward FORM)` of another model under the same
    /// constants and predicates, declared in the same order, has the very listing. Its numbers are the value diagram's, S^k times the
    /// values.
    ///
    /// # Refusals
    /// `Place` before a `(start)`; `Length` (the line `(reward FORM)` would pass 4,095 bytes or 64 open brackets).
    ///
    /// ```
    /// use yindolve::Session;
    /// let model = include_str!("../../../examples/sample.txt");
    /// let mut session = Session::load(model)?;
    /// session.backup()?;
    /// session.cut_all()?;
    /// let form = session.text()?;
    /// assert_eq!(form, "(if (= hub ?v0) (if (stock hub) 120 30) 0)");
    /// let next = Session::load(model.replace("(if (stock hub) 10 0)", &form))?;
    /// assert_eq!(next.reward(), session.listing());
    /// # Ok::<(), Box<dyn std::error::Error>>(())
    /// ```
    pub fn text(&mut self) -> Result<String, Refusal> {
        match self.line("(text)") {
            Answer::Text(form) => Ok(form),
            Answer::Refused { refusal, .. } => Err(refusal),
            other => unreachable!("{other:?} for (text)"),
        }
    }

    /// The value diagram, once a `(start)` was accepted.
    pub fn listing(&self) -> Option<Listing> {
        self.is_started().then(|| self.memory.value())
    }

    /// The reward's diagram, once a `(start)` was accepted.
    pub fn reward(&self) -> Option<Listing> {
        self.is_started().then(|| self.memory.reward())
    }

    /// Begins a state of so many objects by the model's names. It is none of the session's until it is valued, and no limit of a
    /// text's state (64 objects, 1,024 facts) holds for it.
    pub fn state(&self, objects: u64) -> StateBuilder<'_> {
        StateBuilder::new(&self.vocabulary, objects)
    }

    /// The value of a state. The state in hand stays as it is.
    ///
    /// # Refusals
    /// `Place` (before a `(start)`, or a declared constant has no object); `Name` (a fact of a predicate that is not declared);
    /// `Range` (no object, or one named that is not there); `Valuations` (more than 1,000,000 ways to choose objects, and
    /// a minimum variable or more than 8,192 entries in the tables that take their place).
    pub fn value(&self, state: &State) -> Result<Value, Refusal> {
        if !self.is_started() || state.constants.len() < self.vocabulary.constants().len() {
            return Err(Refusal::Place);
        }
        let predicates = 1..=self.vocabulary.predicates().len() as u64;
        if !state.facts.iter().all(|fact| predicates.contains(&fact[0])) {
            return Err(Refusal::Name);
        }
        let mut value = 0;
        let (listing, facts) = (self.memory.value(), state.facts.as_flattened());
        calls::value(self.arities().words(), listing.words(), state.objects, &state.constants, facts, &mut value)?;
        Ok(Value::new(value, self.steps(), self.scale()))
    }

    /// The value of the state in hand, which `(objects n)`, `(is c o)` and `(true p o ..)` lines put in.
    ///
    /// # Refusals
    /// `Place` (before a `(start)`, no state, or a constant that is not placed); `Valuations`.
    pub fn value_in_hand(&mut self) -> Result<Value, Refusal> {
        match self.line("(value)") {
            Answer::Value(value) => Ok(value),
            Answer::Refused { refusal, .. } => Err(refusal),
            other => unreachable!("{other:?} for (value)"),
        }
    }

    /// Which move to make in the state in hand: the first action, then the lowest objects in order, whose weighted sum over variants is
    /// highest, the one inside the step from k to k + 1. Who makes it gets the value that the next [`backup`](Session::backup), if it is
    /// accepted, states. Nothing changes by it. How long it takes grows with the objects to the power of an action's parameters.
    ///
    /// # Refusals
    /// `Place` before a `(start)`; `Missing` (no state, or a constant that is not placed); then action by action the first of
    /// `Variables`, `Pairs`, `Value`, `Space` that its calls meet, and `Valuations` of a choice of its objects.
    ///
    /// ```
    /// use yindolve::Session;
    /// let mut session = Session::load(include_str!("../../../examples/liftparts.txt"))?;
    /// session.backup()?;
    /// session.cut_all()?;
    /// session.tell("(objects 3)\n(true wanted 0)\n(true aboard 0 2)\n")?;
    /// assert_eq!(session.best()?.to_string(), "call 2");
    /// session.backup()?;
    /// assert_eq!(session.value_in_hand()?.fraction().to_string(), "243/64");
    /// # Ok::<(), Box<dyn std::error::Error>>(())
    /// ```
    pub fn best(&mut self) -> Result<Move, Refusal> {
        match self.line("(best)") {
            Answer::Best(best) => Ok(best),
            Answer::Refused { refusal, .. } => Err(refusal),
            other => unreachable!("{other:?} for (best)"),
        }
    }

    /// Moves the state in hand as a log says: what was done, how it came out, and to which objects. The facts of the next state are what the variant's
    /// truth diagrams say in the old one; all else stays. The answer counts such lines since the state was told, and totals the rewards met: of the state
    /// before the first line, and of the one behind each. `(objects n)` and `(true ..)`, one that repeats a fact too, begin again with 0.
    ///
    /// No number bounds the work: a truth diagram of a predicate with many places that is 1 where little is tested takes long.
    ///
    /// # Refusals
    /// `Form` (a name with other than letters and digits; no line is answered then); `Place` (before a `(start)`, no state, or a constant that is not placed);
    /// `Name` (no such action); `Arity` (not an object for each of its parameters); `Name` (no such variant of it); `Range` (an object that is not there);
    /// `Weightless` (the variant's weight is 0 in the state); `Crowded` (the next state has more than 1,024 facts); `Valuations` (of the reward); `Tally` (the
    /// count or the total would pass 10^18). Nothing changes then.
    ///
    /// ```
    /// use yindolve::{Refusal, Session};
    /// let mut session = Session::load(include_str!("../../../examples/liftparts.txt"))?;
    /// session.tell("(objects 3)\n(true wanted 0)\n(true aboard 0 2)\n")?;
    /// session.did("call", "comes", &[2])?;
    /// session.did("unload", "broken", &[2])?;
    /// let log = session.did("unload", "done", &[2])?;
    /// assert_eq!((log.count, log.total), (3, 12));
    /// assert_eq!(session.did("unload", "lost", &[2]), Err(Refusal::Name));
    /// assert_eq!(session.log(), log);
    /// # Ok::<(), Box<dyn std::error::Error>>(())
    /// ```
    pub fn did(&mut self, action: &str, variant: &str, objects: &[u64]) -> Result<Log, Refusal> {
        let is_word = |name: &&str| name.bytes().all(|byte| byte.is_ascii_lowercase() || byte.is_ascii_digit());
        if ![action, variant].iter().all(is_word) {
            return Err(Refusal::Form);
        }
        let objects: String = objects.iter().map(|object| format!(" {object}")).collect();
        match self.line(format!("(did {action} {variant}{objects})")) {
            Answer::Did(log) => Ok(log),
            Answer::Refused { refusal, .. } => Err(refusal),
            other => unreachable!("{other:?} for (did ..)"),
        }
    }

    /// What the `(did ..)` lines come to that were accepted since the state was told.
    pub fn log(&self) -> Log {
        let (count, total) = self.memory.log();
        Log { count, total }
    }

    /// How many states of so many objects have which value, lowest first, with the constants placed as they are in the state in hand. A
    /// state is one choice of true or false for each ground fact of every declared predicate, so that the numbers of states add up to 2 to
    /// the power of the number of ground facts. Nothing changes by it.
    ///
    /// # Refusals
    /// `Place` (before a `(start)`, or a constant that is not placed); `Range` (not 1 to 64 objects, or a constant is placed beyond them);
    /// `Ground` (more than 16 ground facts); `Valuations` (met by one of the states).
    ///
    /// ```
    /// use yindolve::Session;
    /// let mut session = Session::load("(predicate stock 1)\n(reward (if (stock ?s) 10 0))\n(action wait)\n(variant only 100)\n(start)\n")?;
    /// let counts: Vec<(u64, u64)> = session.count(4)?.iter().map(|count| (count.value, count.states)).collect();
    /// assert_eq!(counts, [(0, 1), (10, 15)]);
    /// # Ok::<(), Box<dyn std::error::Error>>(())
    /// ```
    pub fn count(&mut self, objects: u64) -> Result<Vec<Count>, Refusal> {
        match self.line(format!("(count {objects})")) {
            Answer::Counts(counts) => Ok(counts),
            Answer::Refused { refusal, .. } => Err(refusal),
            other => unreachable!("{other:?} for (count n)"),
        }
    }

    /// The session as bytes: the accepted lines of the model and of the state in hand, what a log came to, the value diagram, k, and a
    /// sum over all of them. They are a text that can be read; [`restore`](Session::restore) takes them back.
    pub fn save(&self) -> Vec<u8> {
        let value = self.listing();
        saved::write(&Parts {
            model: self.model.clone(),
            state: self.state_lines(),
            log: self.log(),
            steps: self.steps(),
            rows: value.map_or(Vec::new(), |listing| listing.rows().collect()),
            lines: self.lines(),
            met: self.memory.met(),
        })
    }

    /// The session that was saved: it answers as the saved one would have.
    ///
    /// The model and the state are read anew from their lines, the value diagram is checked to be one of this model, and a sum tells
    /// bytes that were damaged. That the diagram came from backups, cuts and reductions is taken on trust: who makes up bytes with a right sum may
    /// make up values, and nothing worse.
    ///
    /// # Errors
    /// [`Damaged`], with what is wrong.
    ///
    /// ```
    /// use yindolve::Session;
    /// let mut session = Session::load("(total 4)\n(reward 7)\n(action wait)\n(variant only 4)\n(start)\n")?;
    /// session.backup()?;
    /// let bytes = session.save();
    /// let mut other = Session::restore(&bytes)?;
    /// assert_eq!(other.backup()?.steps, 2);
    /// assert!(Session::restore(&bytes[1..]).is_err());
    /// # Ok::<(), Box<dyn std::error::Error>>(())
    /// ```
    pub fn restore(bytes: &[u8]) -> Result<Session, Damaged> {
        let parts = saved::read(bytes)?;
        let mut session = Session::open();
        for (part, lines) in [(false, &parts.model), (true, &parts.state)] {
            for line in lines {
                if session.is_started() != part || session.line(line) != Answer::Nothing {
                    return Err(Damaged::new(format!("the line {line} is not accepted there")));
                }
            }
        }
        if parts.log != Log::default() && (session.memory.objects() == 0 || parts.log.count == 0) {
            return Err(Damaged::new("it has a total of logged lines, but no state or no line"));
        }
        session.memory.set_log(parts.log.count, parts.log.total);
        if session.is_started() {
            let listing = Listing::from_rows(&session.arities(), parts.rows).map_err(|_| Damaged::new("the rows are no listing"))?;
            if !listing.is_closed(&session.arities()) {
                return Err(Damaged::new("the value diagram has a parameter, or its variables are not closed up"));
            }
            let scale = saved::scale(session.memory.step_scale(), parts.steps).ok_or(Damaged::new("there are too many steps"))?;
            session.memory.hold(&listing, parts.steps, scale);
        } else if parts.steps != 0 || !parts.rows.is_empty() {
            return Err(Damaged::new("there is a value diagram, but no (start)"));
        }
        if session.memory.met() && !parts.met {
            return Err(Damaged::new("it has lines of a model, but says that none was met"));
        }
        session.memory.set_lines(parts.lines, parts.met);
        session.bytes = 0;
        Ok(session)
    }
}
