//! The examples of the pages in docs/.
use reference::assembly::{Cause, Kernel, assemble, assemble_kernel};
use reference::batches::{Item, pack};
use reference::commands::{Command, Program, Status, answer, ran, read};
use reference::field::PRIME;
use reference::formats::inputs::{self, Inputs};
use reference::formats::statements::{self, Statement};
use reference::machine::{MOST_CYCLES, Stop, TrapCause};
use reference::operations::{ADD, PUSH};
use reference::permutation::{Params, round, seventh_powers};
use reference::trees::{Tree, digest};
use reference::workload;

const ZEROS: Params = Params { first: [[0; 12]; 7], second: [[0; 12]; 7] };

fn refusal(source: &str) -> (u32, u32, Cause) {
    let (at, cause) = assemble(&ZEROS, source.as_bytes(), &Kernel::default()).expect_err("a refusal");
    (at.line, at.column, cause)
}

fn run(source: &str, kernel: &str, inputs: &Inputs) -> Result<(usize, Vec<u64>), Stop> {
    let kernel = assemble_kernel(kernel.as_bytes()).expect("a kernel");
    let tree = assemble(&ZEROS, source.as_bytes(), &kernel).expect("a program");
    let program = Program::of(&ZEROS, tree, kernel);
    let run = ran(&ZEROS, &program, inputs, MOST_CYCLES)?;
    Ok((run.cycles(), run.outputs))
}

fn leaves(source: &str) -> Vec<u64> {
    run(source, "", &Inputs::default()).expect("a run that ends").1
}

#[test]
fn refusals_of_the_second_pass() {
    assert_eq!(refusal("begin add"), (1, 10, Cause::Syntax));
    assert_eq!(refusal("begin else end"), (1, 7, Cause::Syntax));
    assert_eq!(refusal("begin swap.0 end"), (1, 7, Cause::NumberRange));
    assert_eq!(refusal("begin dup.N end"), (1, 7, Cause::Syntax));
    assert_eq!(refusal("begin loc_load.0 end"), (1, 7, Cause::LocalsRange));
    assert_eq!(refusal("begin repeat.10001 neg end end"), (1, 7, Cause::RepeatRange));
    assert_eq!(refusal("begin end emit.1"), (1, 11, Cause::Unsupported));
    assert_eq!(refusal("begin ADD end"), (1, 7, Cause::UnknownInstruction));
}

#[test]
fn cells_across_calls() {
    let traps = |source: &str| match run(source, "", &Inputs::default()) {
        Err(Stop::Trap { cause, .. }) => cause,
        other => panic!("{other:?}"),
    };
    assert_eq!(traps("proc.f push.1 end begin call.f end"), TrapCause::DepthAtReturn);
    assert_eq!(leaves("proc.f push.1 add end begin push.9 call.f end")[0], 10);
    assert_eq!(traps("proc.f.1 loc_store.0 loc_load.0 end begin push.9 call.f end"), TrapCause::DepthAtReturn);
    assert_eq!(leaves("proc.f.1 dup loc_store.0 loc_load.0 swap drop end begin push.9 call.f end")[0], 9);
    assert_eq!(leaves("proc.f drop end begin push.9 call.f end"), [0; 17]);
}

#[test]
fn instructions() {
    assert_eq!(leaves("begin push.3 exp.4 end")[0], 81);
    assert_eq!(leaves("begin push.1.2.3 movup.2 end")[..3], [1, 3, 2]);
    assert_eq!(leaves("begin push.4294967296 u32split end")[..2], [1, 0]);
    assert_eq!(leaves("begin push.4294967295 u32wrapping_add.1 end")[0], 0);
    assert_eq!(leaves("begin push.6 push.3 u32checked_xor end")[0], 5);
    assert_eq!(leaves("begin push.1 u32checked_shl.4 end")[0], 16);
    assert_eq!(leaves("begin push.5 push.7 u32checked_max end")[0], 7);
    assert_eq!(leaves("begin push.9 mem_store.3 mem_load.3 end")[0], 9);
    let tape = Inputs { stack: Vec::new(), advice: vec![7, 8, 9] };
    assert_eq!(run("begin adv_push.2 end", "", &tape).expect("a run that ends").1[..2], [8, 7]);
}

#[test]
fn dynamic_blocks() {
    let dispatching = |bit: u64| {
        format!(
            "proc.square movup.4 dup mul movdn.4 end proc.double movup.4 dup add movdn.4 end begin push.5 push.{bit}
            if.true procref.square else procref.double end dynexec dropw swap drop end"
        )
    };
    assert_eq!(leaves(&dispatching(1))[0], 25);
    assert_eq!(leaves(&dispatching(0))[0], 10);
    assert_eq!(leaves("proc.f end begin procref.f end")[..4], [0; 4]);
}

#[test]
fn the_library() {
    let sum = leaves("begin push.5.0 push.7.0 exec.u64_wrapping_add end");
    assert_eq!((sum.len(), &sum[..2]), (18, [0, 12].as_slice()));
    let great = [u64::from(u32::MAX) << 32 | 1, 1 << 32, u64::from(u32::MAX), 0, 1];
    for (a, b) in great.iter().flat_map(|a| great.map(|b| (*a, b))) {
        let left = |name: &str| {
            let limbs = [a, b].map(|number| format!("push.{}.{}", number & u64::from(u32::MAX), number >> 32)).join(" ");
            leaves(&format!("begin {limbs} exec.u64_{name} end"))
        };
        let (sum, carry) = a.overflowing_add(b);
        let (difference, borrow) = a.overflowing_sub(b);
        assert_eq!(left("overflowing_add")[..3], [u64::from(carry), sum >> 32, sum & u64::from(u32::MAX)]);
        assert_eq!(left("overflowing_sub")[..3], [u64::from(borrow), difference >> 32, difference & u64::from(u32::MAX)]);
        let found = ["lt", "gte", "gt", "lte", "eq"].map(|name| left(name)[0] == 1);
        assert_eq!(found, [a < b, a >= b, a > b, a <= b, a == b]);
    }
}

#[test]
fn names_of_the_library() {
    assert_eq!(leaves("proc.u64_eq push.9 end begin exec.u64_eq end")[0], 9);
    assert_eq!(leaves("begin procref.u64_eq end"), leaves("proc.f u32assertw movup.2 eq movdn.2 eq and end begin procref.f end"));
    assert_eq!(refusal("begin exec.u64_neq end"), (1, 7, Cause::UnknownProcedure));
    assert_eq!(refusal("begin syscall.u64_eq end"), (1, 7, Cause::NotInKernel));
    let (at, cause) = assemble_kernel(b"export.k exec.u64_eq end").err().expect("a refusal");
    assert_eq!((at.line, at.column, cause), (1, 10, Cause::UnknownProcedure));
}

#[test]
fn words_of_member() {
    let words = |text: &'static str| text.split(' ').map(str::as_bytes).collect::<Vec<&[u8]>>();
    let is_member = |text| matches!(read(&words(text)), Some(Command::Member(_)));
    assert!(is_member("member p t s --depth 1 --evidence e"));
    assert!(is_member("member --pieces=64 --depth=64 --evidence=e -- p t s"));
    assert!(!is_member("member p t s --depth 0 --evidence e"));
    assert!(!is_member("member p t s --depth 65 --evidence e"));
    assert!(!is_member("member p t s --evidence e"));
    assert!(!is_member("member p t s --depth 1 --evidence s"));
    assert_eq!(answer(&words("member p t s --depth 01 --evidence e")).status, Status::Usage);
}

#[test]
fn a_whole_program() {
    let source = "const.TOTAL=7 proc.add_square.1 loc_store.0 loc_load.0 loc_load.0 mul mem_load.TOTAL add mem_store.TOTAL end
        begin push.5 dup neq.0 while.true dup is_odd if.true dup exec.add_square end sub.1 dup neq.0 end drop mem_load.TOTAL
        syscall.keep swap drop end";
    let (_, outputs) = run(source, "export.keep dup mem_store.100 end", &Inputs::default()).expect("a run that ends");
    assert_eq!((outputs.len(), outputs[0]), (16, 35));
}

#[test]
fn batches() {
    let push = |immediate: u64| Item { code: PUSH, immediate };
    let add = Item { code: ADD, immediate: 0 };
    assert_eq!(pack(&[push(2), push(3), add, push(7)]), [[145318597, 2, 3, 7, 0, 0, 0, 0]]);
}

#[test]
fn roots_are_seventh_roots() {
    let state: [u64; 12] = std::array::from_fn(|i| PRIME - 1 - i as u64);
    let powers = seventh_powers(&round(&ZEROS, 3, &state));
    assert_eq!(powers, reference::permutation::before_roots(&ZEROS, 3, &state));
}

#[test]
fn an_empty_body_under_zeros() {
    let tree = assemble(&ZEROS, b"begin end", &Kernel::default()).expect("a program");
    assert_eq!(tree, Tree::Span(vec![[0; 8]]));
    assert_eq!(digest(&ZEROS, &tree), [0; 4]);
}

#[test]
fn texts_that_are_written() {
    let inputs = workload::inputs(3);
    assert_eq!(inputs::written(&inputs), r#"{"advice":[1,4,9],"stack":[]}"#);
    assert_eq!(inputs::read(inputs::written(&inputs).as_bytes()), Ok(inputs));
    let claim = Statement { digest: [1, 2, 3, 4], kernel: vec![[0; 4]], inputs: Vec::new(), outputs: vec![0; 16] };
    assert_eq!(statements::read(statements::written(&claim).as_bytes()), Ok(claim));
}

#[test]
fn workloads() {
    for turns in 1..5 {
        let (cycles, _) = run(&workload::source(turns), "", &workload::inputs(turns)).expect("a run that ends");
        assert_eq!(cycles, 16 + 79 * turns as usize);
    }
}
