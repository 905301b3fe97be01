//! A dispatcher's list, a foreman's plan, and the short tree between them.
//!
//! The dispatcher hands out one permit (a1), one gasket (a2) and one visit slot (a3). With a permit and a gasket a seal can be fitted; with the
//! fitted seal (a4) and the slot the job (a5) is signed off. The foreman's phone searches for a tree and sends it short; the office expands it
//! against its own question, and believes what expands: that is a proof of the question.
use vakelumba::{Formula, Memory, Mode, Question, Search, Searched, ShortRefusal, ShortTree, Tree, Verdict};

fn step(from: &Formula, also: &Formula, to: &Formula) -> Formula {
    from.lolli(&also.lolli(to))
}

/// The office's side: bytes that came over the air, and its own question.
fn believed(bytes: &[u8], question: &Question, memory: &mut Memory) -> String {
    match memory.expand(question, &ShortTree::from_bytes(bytes.to_vec())) {
        Ok(tree) => format!("a tree of {} bytes and depth {}: believed", tree.as_bytes().len(), tree.depth()),
        Err(ShortRefusal::NoStep) => "no plan for this question".to_string(),
        Err(ShortRefusal::Refused(why)) => format!("not a short tree: {why}"),
    }
}

/// The foreman's side: a plan, searched on the phone.
fn plan(what: &str, question: &Question, memory: &mut Memory) -> Option<Tree> {
    let (said, c) = Search::default().prove(question, memory);
    let answer = match &said {
        Searched::Found(tree) => format!("a tree of {} bytes", tree.as_bytes().len()),
        Searched::Nothing => "no tree found".to_string(),
        Searched::Refused(why) => format!("refused: {why}"),
    };
    println!("{what}: {answer}, explored {} hits {} depth {}", c.explored, c.hits, c.reached);
    match said {
        Searched::Found(tree) => Some(tree),
        _ => None,
    }
}

fn main() {
    let [permit, gasket, slot, seal, job] = [1, 2, 3, 4, 5].map(Formula::atom);
    let list = [
        permit.clone(),
        gasket.clone(),
        slot.clone(),
        step(&permit, &gasket, &seal),
        step(&seal, &slot, &job),
    ];
    for item in &list {
        println!("on the list: {}", item.pretty().expect("it is low"));
    }

    let (mut phone, mut office) = (Memory::new(), Memory::new());
    let one_job = Question::two_sided(&list, &[job.clone()]).expect("it is short");
    let twice = Question::two_sided(&list, &[job.tensor(&permit)]).expect("it is short");
    let tree = plan("the job", &one_job, &mut phone).expect("the list is enough");
    let short = phone.shorten(&one_job, &tree).expect("it was found");
    let mut sent = short.as_bytes().to_vec();
    println!("over the air: {} bytes", sent.len());

    println!("at the office, {}", believed(&sent, &one_job, &mut office));
    let back = office.expand(&one_job, &short).expect("it was believed");
    assert!(back == tree && back.concludes(&one_job) && back.verify(Mode::Strict) == Verdict::Accepted);
    println!(
        "the same bytes for the job and the permit: {}",
        believed(&sent, &twice, &mut office)
    );
    let last = sent.len() - 1;
    sent[last] ^= 1;
    println!("the bytes with one bit changed: {}", believed(&sent, &one_job, &mut office));
    println!(
        "the tree in place of the short tree: {}",
        believed(tree.as_bytes(), &one_job, &mut office)
    );
    plan("the job and the permit", &twice, &mut phone);
}
