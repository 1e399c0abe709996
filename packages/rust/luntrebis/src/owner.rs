//! The thread that makes the calls of a shared image.

use crate::memories::{Image, FULL, KEPT};
use crate::pending::Teller;
use crate::shared::{Asked, Counted, Numbered};
use crate::words::{confirmation, Error, Of, Op, Refusal, Reply, Request, Result};
use std::collections::{HashMap, HashSet, VecDeque};
use std::fmt;
use std::ops::Range;
use std::sync::mpsc::{Receiver, TryRecvError};
use std::sync::PoisonError;

/// The most members of a group.
const MOST: usize = 16;

/// What the thread is asked to do.
pub(crate) enum Message {
    Ask(Asked),
    Call(Box<dyn FnOnce(&mut Image) + Send>),
    End,
}

impl fmt::Debug for Message {
    fn fmt(&self, f: &mut fmt::Formatter<'_>) -> fmt::Result {
        match self {
            Message::Ask(asked) => asked.fmt(f),
            Message::Call(_) => f.write_str("Call"),
            Message::End => f.write_str("End"),
        }
    }
}

/// Commands that are served together, each with who asked for it. A confirmation that is made here has nobody.
#[derive(Default)]
struct Group {
    commands: Vec<Request>,
    asked: Vec<Option<Asked>>,
    /// The windows of elements, as the requests that are numbered here leave them.
    windows: HashMap<u16, Range<u64>>,
    /// The elements of the other commands.
    others: HashSet<u16>,
    /// The elements of confirmations.
    confirmed: HashSet<u16>,
}

impl Group {
    /// Adds a command, under its number. Returns it if it has to wait for the next group.
    fn take(&mut self, image: &Image, mut asked: Asked) -> Option<Asked> {
        let mut request = asked.request;
        let number = match &asked.numbered {
            Numbered::Here => Ok(Some(request.number)),
            Numbered::Anew => self.number(image, request.element),
            Numbered::Again(counted) => self.count(image, counted, request),
        };
        match number {
            Ok(Some(number)) => request.number = number,
            Ok(None) => return Some(asked),
            Err(error) => {
                asked.teller.tell(Err(error));
                return None;
            }
        }
        if !matches!(asked.numbered, Numbered::Anew) {
            self.others.insert(request.element);
        }
        if matches!(asked.numbered, Numbered::Again(_)) {
            (asked.request, asked.numbered) = (request, Numbered::Here); // In the next group, too.
        }
        self.add(Some(asked), request);
        None
    }

    /// Returns the next number of an element that asks again. Returns `None` if the request has to wait until the
    /// confirmation in this group is served.
    fn count(&mut self, image: &Image, counted: &Counted, request: Request) -> Result<Option<u64>> {
        let mut next = counted.lock().unwrap_or_else(PoisonError::into_inner);
        let base = image.window(request.element)?.start;
        let number = *next.get_or_insert(base);
        if request.op == Op::Confirm {
            self.confirmed.insert(request.element);
            return Ok(Some(number));
        }
        if number - base >= KEPT {
            if self.confirmed.contains(&request.element) {
                return Ok(None);
            }
            let named = image.named(&Request { number, ..request });
            return Err(Error::Refused(Refusal::WindowFull, Of::new(format_args!("{named}{FULL}"))));
        }
        *next = Some(number + 1);
        Ok(Some(number))
    }

    fn add(&mut self, asked: Option<Asked>, command: Request) {
        self.asked.push(asked);
        self.commands.push(command);
    }

    /// Returns the number of an element's next request. Before that it adds a confirmation if the window is full.
    /// Returns `None` if the request has to wait until the commands so far are served.
    fn number(&mut self, image: &Image, element: u16) -> Result<Option<u64>> {
        if self.others.contains(&element) {
            return Ok(None);
        }
        let mut window = match self.windows.get(&element) {
            Some(window) => window.clone(),
            None => image.window(element)?,
        };
        if window.end - window.start >= KEPT {
            let upto = first_that_waits(image, element, window.start)?;
            let is_stuck = upto == window.start;
            if !self.commands.is_empty() && (is_stuck || self.commands.len() + 2 > MOST) {
                return Ok(None);
            }
            if !is_stuck {
                self.add(None, confirmation(element, upto));
            }
            window.start = upto;
        }
        let number = window.end;
        self.windows.insert(element, window.start..number + 1);
        Ok(Some(number))
    }
}

/// Returns the requests of an element that wait.
pub(crate) fn waiting(image: &Image, element: u16) -> Vec<Request> {
    let kept = image.window(element).unwrap_or(0..0);
    let waiting = kept.filter(|it| matches!(image.collect(element, *it), Ok(Reply::Waiting)));
    waiting.filter_map(|it| image.entry(element, it)).collect()
}

/// Returns the first number from this one on that waits, or wasn't asked before this group.
fn first_that_waits(image: &Image, element: u16, mut number: u64) -> Result<u64> {
    let end = image.window(element)?.end;
    while number < end && image.collect(element, number)? != Reply::Waiting {
        number += 1;
    }
    Ok(number)
}

pub(crate) struct Owner {
    image: Image,
    asked: Receiver<Message>,
    /// What came, in its order.
    ready: VecDeque<Message>,
    /// Who waits, by the element and the number of the request.
    waiting: HashMap<(u16, u64), Vec<Teller>>,
    ends: bool,
}

impl Owner {
    pub(crate) fn new(image: Image, asked: Receiver<Message>) -> Owner {
        Owner { image, asked, ready: VecDeque::new(), waiting: HashMap::new(), ends: false }
    }

    /// Serves until it is asked to end and all that was asked before is served.
    pub(crate) fn run(mut self) {
        while self.take_in() {
            self.do_next();
        }
    }

    /// Takes what was asked, and makes room while nobody asks. Returns whether there is more to do.
    fn take_in(&mut self) -> bool {
        while !self.ends {
            let rests = self.ready.is_empty() && !self.make_room();
            let message =
                if rests { self.asked.recv().map_err(|_| TryRecvError::Disconnected) } else { self.asked.try_recv() };
            match message {
                Ok(Message::End) | Err(TryRecvError::Disconnected) => self.ends = true,
                Ok(message) => self.ready.push_back(message),
                Err(TryRecvError::Empty) if self.ready.is_empty() => {}
                Err(TryRecvError::Empty) => break,
            }
        }
        !self.ready.is_empty()
    }

    /// Makes room in the journal while nobody asks. Returns whether there was anything to do.
    fn make_room(&mut self) -> bool {
        self.image.make_room().unwrap_or_else(|_| {
            self.tell_lost();
            false
        })
    }

    /// Makes the call that came first, or serves a group of the commands that came first.
    fn do_next(&mut self) {
        match self.ready.pop_front() {
            Some(Message::Call(call)) => {
                call(&mut self.image);
                let waiting: Vec<_> = self.waiting.keys().copied().collect();
                waiting.into_iter().for_each(|of| self.tell_resumed(of)); // The call may have answered anyone.
            }
            Some(first) => {
                self.ready.push_front(first);
                let group = self.gather();
                self.serve(group);
            }
            None => {}
        }
    }

    /// Takes the commands that came first, in their order, up to a group.
    fn gather(&mut self) -> Group {
        let mut group = Group::default();
        while group.commands.len() < MOST {
            let left = match self.ready.pop_front() {
                Some(Message::Ask(asked)) => group.take(&self.image, asked).map(Message::Ask),
                other => other,
            };
            if let Some(left) = left {
                self.ready.push_front(left);
                break;
            }
            if self.ready.is_empty() {
                break;
            }
        }
        group
    }

    /// Serves a group. What isn't served with it comes first in the next one.
    fn serve(&mut self, mut group: Group) {
        if group.commands.is_empty() {
            return;
        }
        match self.image.ask_group(&group.commands) {
            Ok(replies) => {
                let left = group.asked.split_off(replies.len());
                left.into_iter().flatten().rev().for_each(|it| self.ready.push_front(Message::Ask(it)));
                for ((asked, command), reply) in group.asked.into_iter().zip(group.commands).zip(replies) {
                    if let Some(asked) = asked {
                        self.tell(asked, command, reply);
                    }
                }
                self.image.woken().into_iter().for_each(|of| self.tell_resumed(of));
            }
            Err(error) => {
                group.asked.iter().flatten().for_each(|it| it.teller.tell(Err(error.again())));
                self.tell_lost();
            }
        }
    }

    /// Fails all who wait, because a step was lost: no answer comes any more.
    fn tell_lost(&mut self) {
        for (_, tellers) in self.waiting.drain() {
            tellers.iter().for_each(|it| it.tell(Err(Error::Refused(Refusal::Device, Of::new("a step was lost")))));
        }
    }

    /// Gives a request its reply. If the request waits, keeps who is to get the reply. A request that was answered
    /// while its group was served gets its reply at once.
    fn tell(&mut self, asked: Asked, command: Request, reply: Result<Reply>) {
        asked.teller.note(command.number);
        match reply {
            Ok(Reply::Waiting) if asked.waits => {
                let of = (command.element, command.number);
                let waiting = self.waiting.entry(of).or_default();
                waiting.retain(Teller::is_wanted);
                waiting.push(asked.teller);
                self.tell_resumed(of);
            }
            Ok(it) if it.is_error() => asked.teller.tell_of(reply, self.image.named(&command)),
            reply => asked.teller.tell(reply),
        }
    }

    /// Gives the reply to those who waited for an entry that is answered now.
    fn tell_resumed(&mut self, of: (u16, u64)) {
        match self.image.collect(of.0, of.1) {
            Ok(Reply::Waiting) => {}
            reply => {
                let asked = self.image.entry(of.0, of.1);
                let named = asked.map_or_else(String::new, |it| self.image.named(&it));
                for teller in self.waiting.remove(&of).unwrap_or_default() {
                    teller.tell_of(reply.as_ref().map(|it| *it).map_err(Error::again), named.clone());
                }
            }
        }
    }
}
