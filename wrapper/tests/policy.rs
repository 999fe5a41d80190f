//! The types over the thin calls: policies, members, decisions, compositions, and the errors in words.

mod common;

use common::{K1, worked};
use snowdell::{Access, Answer, Answers, CHECK_STACK, Member, Memory, Policy, Refusal, Refused, STACK, Undeclared};
use std::error::Error;
use std::sync::Mutex;
use std::thread;

/// Sorts that share a name, hierarchies, a list that is here and one that is away.
const CLINIC: &[u8] = b"S,staff,-\nS,ann,staff\nS,cook,staff\nS,temp,cook\nO,wk4,-\nO,wk3,wk4\nO,staff,-\nA,read,-\nA,write,-\n\
    P,S,on_leave,cook\nT,ward,here\nT,kitchen,away\nG,ward,ann,wk3,write\nG,ward,staff,staff,read\nE,7,ward+kitchen^[s<cook]^[a=read]\n";

fn clinic() -> Policy<'static> {
    Policy::new(CLINIC).expect("an accepted file")
}

fn refused(file: &[u8]) -> Refused {
    Policy::new(file).expect_err("a refused file")
}

#[test]
fn members_come_in_file_order_with_their_parents() {
    let member = |name, parent| Member { name, parent };
    let policy = clinic();
    let subjects =
        [member("staff", None), member("ann", Some("staff")), member("cook", Some("staff")), member("temp", Some("cook"))];
    assert!(policy.subjects().eq(subjects));
    assert!(policy.objects().eq([member("wk4", None), member("wk3", Some("wk4")), member("staff", None)]));
    assert!(policy.actions().eq([member("read", None), member("write", None)]));
}

#[test]
fn members_say_how_many_are_left_and_end() {
    let mut objects = clinic().objects();
    for left in (0..3).rev() {
        assert!(objects.next().is_some());
        assert_eq!((objects.len(), objects.size_hint()), (left, (left, Some(left))));
    }
    assert_eq!((objects.next(), objects.next(), objects.len()), (None, None, 0));
}

#[test]
fn each_answer_is_decided_by_name() {
    let (policy, mut memory) = (clinic(), Memory::new());
    let mut ask = |s, o, a| policy.decide(s, o, a, &mut memory).map(|said| (said.answer, said.rounds));
    assert_eq!(ask("ann", "wk3", "write"), Ok((Answer::Permit, 0)));
    assert_eq!(ask("ann", "wk3", "read"), Ok((Answer::Deny, 0)));
    assert_eq!(ask("temp", "staff", "read"), Ok((Answer::Undecided, 0)));
    assert_eq!(ask("cook", "staff", "read"), Ok((Answer::Deny, 0)));
}

#[test]
fn the_first_name_that_is_not_declared_is_told() {
    let (policy, mut memory) = (clinic(), Memory::new());
    let mut ask = |s, o, a| policy.decide(s, o, a, &mut memory);
    assert_eq!(ask("wk3", "ann", ""), Err(Undeclared::Subject));
    assert_eq!(ask("staff", "ann", "Read"), Err(Undeclared::Object));
    assert_eq!(ask("staff", "staff", "staff"), Err(Undeclared::Action));
    assert_eq!(ask("ann\n", "wk3", "read"), Err(Undeclared::Subject));
    assert_eq!(ask("ann", "Müller", "read"), Err(Undeclared::Object));
}

/// Permits, undecided and rounds of a file.
fn composed(file: &[u8]) -> (usize, usize, usize) {
    let mut answers = Answers::new();
    let policy = Policy::new(file).expect("an accepted file");
    let all = policy.compose(&mut answers, &mut Memory::new());
    let of = |answer| all.accesses().filter(|access| access.answer == answer).count();
    assert_eq!((of(Answer::Permit), of(Answer::Undecided)), (all.permits, all.undecided));
    (all.permits, all.undecided, all.rounds)
}

#[test]
fn the_worked_file_and_its_changes() {
    assert_eq!(composed(&worked(4096, K1)), (2, 0, 1));
    assert_eq!(composed(&worked(4096, "forms*down^[o<week]")), (0, 0, 1));
    assert_eq!(composed(&worked(1, K1)), (2, 0, 1));
    assert_eq!(composed(&worked(0, K1)), (1, 3, 0));
    assert_eq!(composed(&worked(0, "forms*down^[o<week]")), (0, 2, 0));
    assert_eq!(composed(&worked(4096, "forms+forms-forms")), (0, 0, 0));
    assert_eq!(composed(&worked(4096, "o(forms,forms*down,forms*down)")), (2, 0, 2));
    assert_eq!(Refusal::from(refused(&worked(4096, "forms-"))), Refusal { number: 12, line: 11, place: 6 });
    assert_eq!(Refusal::from(refused(&worked(4096, "forms^[o<wk]"))), Refusal { number: 13, line: 11, place: 9 });
}

#[test]
fn accesses_come_in_the_order_of_their_numbers() {
    let policy = clinic();
    let (mut answers, mut memory) = (Answers::new(), Memory::new());
    let all = policy.compose(&mut answers, &mut memory);
    let mut accesses = all.accesses();
    for (s, subject) in policy.subjects().enumerate() {
        for (o, object) in policy.objects().enumerate() {
            for (a, action) in policy.actions().enumerate() {
                let Access { answer, .. } = accesses.clone().next().expect("an access");
                let (subject, object, action) = (subject.name, object.name, action.name);
                assert_eq!(accesses.len(), 24 - (s * 3 + o) * 2 - a);
                assert_eq!(accesses.next(), Some(Access { answer, subject, object, action }));
                assert_eq!(all.answer(s, o, a), Some(answer));
                assert_eq!(policy.decide(subject, object, action, &mut memory).map(|said| said.answer), Ok(answer));
            }
        }
    }
    assert_eq!((accesses.next(), accesses.next(), accesses.len()), (None, None, 0));
}

#[test]
fn a_number_that_no_member_has_gives_no_answer() {
    let mut answers = Answers::new();
    let policy = clinic();
    let all = policy.compose(&mut answers, &mut Memory::new());
    assert_eq!(all.answer(3, 2, 1), Some(Answer::Deny));
    for [s, o, a] in
        [[4, 0, 0], [0, 3, 0], [0, 0, 2], [usize::MAX, 0, 0], [0, usize::MAX, 0], [0, 0, usize::MAX], [usize::MAX; 3]]
    {
        assert_eq!(all.answer(s, o, a), None, "{s} {o} {a}");
    }
}

#[test]
fn memory_and_answers_serve_again() {
    let full: String = ["S", "O"].iter().flat_map(|sort| (0..64).map(move |n| format!("{sort},m{n},-\n"))).collect();
    let full = format!("{full}A,read,-\nT,ward,away\nE,0,ward\n");
    let (mut answers, mut memory) = (Box::new(Answers::new()), Box::new(Memory::new()));
    let large = Policy::new(full.as_bytes()).expect("an accepted file");
    let all = large.compose(&mut answers, &mut memory);
    assert_eq!((all.accesses().len(), all.undecided), (4096, 4096));
    let last = Access { answer: Answer::Undecided, subject: "m63", object: "m63", action: "read" };
    assert_eq!(all.accesses().last(), Some(last));
    let (small, policy) = (worked(4096, K1), clinic());
    let lines = |policy: &Policy, answers: &mut Answers, memory: &mut Memory| -> Vec<String> {
        policy.compose(answers, memory).accesses().map(|access| access.to_string()).collect()
    };
    let four = ["permit,staff,week,read", "deny,staff,mon,read", "permit,ann,week,read", "deny,ann,mon,read"];
    assert_eq!(lines(&Policy::new(&small).expect("an accepted file"), &mut answers, &mut memory), four);
    assert_eq!(lines(&policy, &mut answers, &mut memory).len(), 24);
}

#[test]
fn names_outlive_the_policy() {
    let file = worked(4096, K1);
    let names: Vec<&str> = {
        let policy = Policy::new(&file).expect("an accepted file");
        policy.subjects().chain(policy.objects()).map(|member| member.name).collect()
    };
    assert_eq!(names, ["staff", "ann", "week", "mon"]);
}

#[test]
fn a_refusal_is_one_line_of_words() {
    let said = |file: &[u8]| refused(file).to_string();
    assert_eq!(
        said(b""),
        "refused 2: the file is empty, longer than 32,768 bytes, or its last byte is no line feed; \
         fetch the file again; close the last line"
    );
    assert_eq!(said(&[b'\n'; 32_769]), said(b""));
    assert_eq!(
        said(b"S,ann,-\nS,bob,nobody\n"),
        format!(
            "refused 6 at line 2: {}",
            "a parent, member, table or predicate is named that no \
        earlier line declares, in its own sort; declare it, or mend the spelling"
        )
    );
    assert_eq!(
        said(b"S,x,-\nO,x,-\nA,x,-\nE,0,)\n"),
        "refused 12 at line 4, place 0: the expression is no expression; look at the byte at that place, counted from 0"
    );
    assert_eq!(
        said(&worked(4096, "forms^[o<wk]")),
        "refused 13 at line 11, place 9: a name in the expression is not declared as what it stands for there; \
         declare it, or mend the spelling"
    );
}

#[test]
fn every_number_has_words_of_its_own() {
    let mut all = Vec::new();
    for number in 1..=17 {
        let refused = Refusal { number, line: 3, place: 0 }.accepted().expect_err("a refusal");
        assert_eq!((refused.number(), refused.line()), (number, Some(3)));
        assert_eq!(refused.place().is_some(), [12, 13, 15].contains(&number));
        let words = refused.to_string();
        assert!(words.starts_with(&format!("refused {number} at line 3")), "{words}");
        assert!(words.bytes().all(|byte| (b' '..=b'~').contains(&byte)), "{words}");
        assert!(!all.contains(&refused.what_happened()), "{words}");
        all.push(refused.what_happened());
    }
    assert_eq!(Refusal { number: 0, line: 0, place: 0 }.accepted(), Ok(()));
}

#[test]
fn a_name_that_is_not_declared_is_number_15() {
    let words = |word| format!("refused 15: the {word} asked for is not declared; ask for a declared name");
    for (undeclared, word, place) in
        [(Undeclared::Subject, "subject", 1), (Undeclared::Object, "object", 2), (Undeclared::Action, "action", 3)]
    {
        assert_eq!(undeclared.to_string(), words(word));
        assert_eq!(Refused::from(undeclared).to_string(), words(word));
        assert_eq!(Refusal::from(Refused::from(undeclared)), Refusal { number: 15, line: 0, place });
    }
}

/// Both errors go where a caller's function sends them.
fn may<E: From<Refused> + From<Undeclared>>(file: &[u8], subject: &str) -> Result<Answer, E> {
    let policy = Policy::new(file)?;
    Ok(policy.decide(subject, "week", "read", &mut Memory::new())?.answer)
}

#[test]
fn errors_are_handed_on() {
    let file = worked(4096, K1);
    assert_eq!(may::<Refused>(&file, "ann"), Ok(Answer::Permit));
    assert_eq!(may::<Refused>(&file, "nobody").map_err(Refused::number), Err(15));
    let boxed: Box<dyn Error + Send + Sync> = may::<Box<dyn Error + Send + Sync>>(b"", "ann").expect_err("a refused file");
    assert_eq!(boxed.downcast_ref::<Refused>().map(|refused| refused.number()), Some(2));
    let boxed = may::<Box<dyn Error + Send + Sync>>(&file, "nobody").expect_err("an unknown name");
    assert_eq!(boxed.downcast_ref::<Undeclared>(), Some(&Undeclared::Subject));
}

#[test]
fn threads_share_a_policy() {
    let policy = clinic();
    let all = || {
        let (mut answers, mut memory) = (Box::new(Answers::new()), Box::new(Memory::new()));
        policy.compose(&mut answers, &mut memory).accesses().map(|access| access.to_string()).collect::<Vec<String>>()
    };
    let alone = all();
    thread::scope(|scope| {
        let threads: Vec<_> = (0..4).map(|_| scope.spawn(|| (0..50).all(|_| all() == alone))).collect();
        assert!(threads.into_iter().all(|thread| thread.join().expect("no panic")));
    });
}

/// Runs on a thread with a stack of so many bytes. One that is too small ends the process.
fn on_a_stack<T: Send>(room: usize, work: impl FnOnce() -> T + Send) -> T {
    thread::scope(|scope| {
        let small = thread::Builder::new().stack_size(room).spawn_scoped(scope, work);
        small.expect("a thread").join().expect("no panic")
    })
}

#[test]
fn the_types_need_no_more_stack_than_the_calls() {
    static LENT: Mutex<(Answers, Memory)> = Mutex::new((Answers::new(), Memory::new()));
    let file = worked(4096, &format!("{}forms*down{}", "(t:x.x)(".repeat(32), ")".repeat(32)));
    let policy = on_a_stack(CHECK_STACK, || Policy::new(&file)).expect("an accepted file");
    let said = on_a_stack(STACK, || {
        let (answers, memory) = &mut *LENT.lock().expect("no panic");
        let all = policy.compose(answers, memory);
        let counted = (all.permits, all.rounds, all.accesses().len());
        (counted, policy.decide("ann", "week", "read", memory).map(|said| said.answer))
    });
    assert_eq!(said, ((2, 1, 4), Ok(Answer::Permit)));
}

#[test]
fn answers_have_numbers_words_and_an_order() {
    let answers = [Answer::Deny, Answer::Undecided, Answer::Permit];
    assert_eq!(answers.map(|answer| answer.to_string()), ["deny", "undecided", "permit"]);
    assert_eq!(format!("{:>7}", Answer::Permit), " permit");
    assert_eq!(answers.map(Answer::is_permit), [false, false, true]);
    assert!(answers.is_sorted() && answers[0] != answers[1] && answers[1] != answers[2]);
    assert_eq!([0, 1, 2].map(|number| Answer::of(number).map(Answer::number)), [Some(0), Some(1), Some(2)]);
    assert_eq!([3, 256, usize::MAX].map(Answer::of), [None; 3]);
}

#[test]
fn what_debug_shows_is_short() {
    let file = worked(4096, K1);
    let policy = Policy::new(&file).expect("an accepted file");
    let action = r#"[Member { name: "read", parent: None }]"#;
    assert_eq!(format!("{:?}", policy.actions()), action);
    assert!(format!("{policy:?}").ends_with(&format!("actions: {action}, .. }}")));
    let (mut answers, mut memory) = (Answers::new(), Memory::new());
    assert_eq!(format!("{answers:?} {memory:?}"), "Answers Memory");
    assert_eq!(
        format!("{:?}", policy.compose(&mut answers, &mut memory)),
        "Composition { permits: 2, undecided: 0, rounds: 1, .. }"
    );
}
