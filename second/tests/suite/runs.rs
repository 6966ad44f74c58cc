//! Whole runs, cycle by cycle, and the slips that document 01 names.

use crate::replayed;

/// Checks the answers to some calls on a guideline.
fn answers(text: &str, calls: &str, expected: &[&str]) {
    let found = replayed(text, calls);
    assert_eq!(found.lines().collect::<Vec<_>>(), expected, "for the calls {calls}");
}

const ROOT: &str = "plan::root;end plan.";

#[test]
fn a_bound_stops_a_run_only_if_rows_are_asked_for() {
    answers(ROOT, "run 0 1024\nrow 0 0 6\n", &["bounded 0", "dormant"]);
    answers(ROOT, "run 1 1024\nrow 0 0 6\n", &["bounded 1", "in_progress"]);
    answers(ROOT, "run 2 1024\nrow 0 0 6\n", &["quiet 2", "completed"]);
    answers(ROOT, "run 256 1024\nrun 256 1024\nrun 0 1024\n", &["quiet 2", "quiet 0", "quiet 0"]);
    answers(ROOT, "run 1 1024\nrun 1 1024\nrun 1 1024\n", &["bounded 1", "quiet 1", "quiet 0"]);
}

#[test]
fn a_bounded_run_drops_its_rows() {
    let calls = "run 0 1024\ntime 9\nrun 1 1024\nrow 0 0 29\n";
    answers(ROOT, calls, &["bounded 0", "done", "bounded 1", "@9"]);
}

/// Cycle 1: the root starts, all below are initialised. Cycle 2: p starts, and
/// what is below it is initialised once more. Cycle 3: a starts.
#[test]
fn a_plan_starts_level_by_level() {
    let text = "plan::root;component::p;end plan.plan::p;component::a;end plan.action::a;end action.";
    let states = "row 0 0 6\nrow 0 1 6\nrow 0 2 6\nrow 0 2 18\n";
    let calls = format!("run 1 1024\n{states}run 1 1024\n{states}run 1 1024\n{states}run 1 1024\n");
    let first = ["bounded 1", "in_progress", "dormant", "dormant", "i0"];
    let second = ["bounded 1", "in_progress", "in_progress", "dormant", "i0"];
    let third = ["quiet 1", "in_progress", "in_progress", "in_progress", "i1"];
    answers(text, &calls, &[&first[..], &second, &third, &["quiet 0"]].concat());
}

/// Slip: enacting each task's rows before the next is reviewed. Both enquiries
/// complete in one cycle, and each takes the other's old value.
#[test]
fn tasks_are_reviewed_against_the_same_table() {
    let text = "plan::root;component::p;component::q;end plan.\
        enquiry::p;postcondition::x=y;end enquiry.enquiry::q;postcondition::y=x;end enquiry.\
        data::x;type::integer;end data.data::y;type::integer;end data.";
    let calls = "add 0 i1\nadd 1 i2\nrun 256 1024\nrow 1 0 42\nrow 1 1 42\n";
    answers(text, calls, &["done", "done", "quiet 4", "i2", "i1"]);
}

#[test]
fn a_swap_in_one_task() {
    let text = "plan::root;postcondition::x=y and y=x;end plan.\
        data::x;type::text;end data.data::y;type::text;end data.";
    let calls = "add 0 t61\nrun 256 1024\nrow 1 0 42\nrow 1 1 42\n";
    answers(text, calls, &["done", "quiet 2", "u", "t61"]);
}

/// Slip: refusing to confirm a dormant task. It is accepted, and the start
/// clears it.
#[test]
fn a_dormant_task_is_confirmed() {
    let text = "plan::root;component::a;end plan.action::a;end action.";
    let calls = "confirm 1\nrow 0 1 17\nrun 256 1024\nrow 0 1 6\nrow 0 1 17\nconfirm 1\nrun 256 1024\n\
                 row 0 1 6\nrow 0 0 6\n";
    let expected =
        ["done", "b1", "quiet 2", "in_progress", "b0", "done", "quiet 2", "completed", "completed"];
    answers(text, calls, &expected);
}

#[test]
fn every_task_may_be_confirmed() {
    let text = "plan::root;component::q;end plan.enquiry::q;end enquiry.";
    let calls = "confirm 0\nconfirm 1\nrow 0 0 17\nrow 0 1 17\nrun 256 1024\nconfirm 1\nrow 0 1 6\n";
    answers(text, calls, &["done", "done", "b1", "b1", "quiet 4", "done", "completed"]);
}

/// A guideline in which p and q complete in the same cycle.
fn together(p: &str, q: &str) -> String {
    format!(
        "plan::root;component::p;component::q;end plan.\
         enquiry::p;postcondition::{p};end enquiry.enquiry::q;postcondition::{q};end enquiry.\
         data::x;type::real;end data.data::t;type::text;end data."
    )
}

const RUN: &str = "run 256 1024\nrow 1 0 42\nrow 1 1 42\nrow 0 1 6\nrow 0 2 6\n";

#[test]
fn tasks_collide() {
    let ends = |p: &str, q: &str, expected: [&str; 3]| {
        let [run, x, t] = expected;
        answers(&together(p, q), RUN, &[run, x, t, "completed", "completed"]);
    };
    ends("x=1", "x=2", ["exception 3", "u", "none"]);
    ends("x=2", "x=2.000", ["exception 3", "u", "none"]);
    ends("x=2", "x=1/0", ["exception 3", "u", "none"]);
    ends("x=2", "x=2", ["quiet 4", "i2", "none"]);
    ends("x=2.0", "x=1.0+1", ["quiet 4", "r2000", "none"]);
    ends("t=a", "t='A'", ["exception 3", "none", "u"]);
    ends("t=a", "t=\"a\"", ["quiet 4", "none", "t61"]);
    ends("t=a and x=1", "t=b and x=1", ["exception 3", "i1", "u"]);
}

#[test]
fn a_task_collides_with_itself() {
    let text = |assertion: &str| {
        format!("plan::root;postcondition::{assertion};end plan.data::x;type::real;end data.")
    };
    let calls = "run 256 1024\nrow 1 0 42\nrow 0 0 6\n";
    answers(&text("x=2 and x=2.0"), calls, &["exception 2", "u", "completed"]);
    answers(&text("x=2 and X=3"), calls, &["exception 2", "u", "completed"]);
    answers(&text("x=2 and (x=1+1)"), calls, &["quiet 2", "i2", "completed"]);
    answers(&text("x=2.0 and x=2.000"), calls, &["quiet 2", "r2000", "completed"]);
}

#[test]
fn after_an_exception_only_load_and_reading_go_on() {
    let text = "plan::root;postcondition::x=1 and x=2;end plan.data::x;type::real;end data.";
    let calls = "run 256 1024\nrun 256 1024\ntime 0\nconfirm 0\nadd 0 i1\ntrigger -\nrow 1 0 42\nrow 0 0 6\n";
    let refused = "refused 7 0";
    let expected = ["exception 2", refused, refused, refused, refused, refused, "u", "completed"];
    answers(text, calls, &expected);
    let again = format!("run 256 1024\nload {}\n{text}\nrow 0 0 6\nrow 1 0 42\nrows\n", text.len());
    let all = replayed(text, &again);
    assert!(all.starts_with("exception 2\nloaded\ndormant\nnone\n"));
    assert!(all.ends_with("time 0\nflag 0\n.\n"), "it starts afresh");
}

#[test]
fn an_exception_that_reaches_the_bound_is_one() {
    let text = "plan::root;postcondition::x=1 and x=2;end plan.data::x;type::real;end data.";
    answers(text, "run 2 1024\n", &["exception 2"]);
    answers(text, "run 1 1024\nrun 1 1024\n", &["bounded 1", "exception 1"]);
}

/// Both enquiries ask for x in one cycle: one row, no collision. The value
/// answers both.
#[test]
fn enquiries_share_an_item() {
    let text = "plan::root;component::p;component::q;end plan.\
        enquiry::p;source::x;mandatory::yes;end enquiry.enquiry::q;source::x;mandatory::yes;end enquiry.\
        data::x;type::integer;end data.";
    let calls = "run 256 1024\nrow 1 0 50\nadd 0 u\nrow 1 0 42\nrow 1 0 50\nrun 256 1024\nrow 0 1 6\n\
                 row 0 2 6\n";
    answers(text, calls, &["quiet 2", "b1", "done", "u", "b0", "quiet 2", "completed", "completed"]);
}

/// A value that is added before the enquiry starts does not answer it.
#[test]
fn a_start_requests_anew() {
    let text = "plan::root;component::q;end plan.enquiry::q;source::x;mandatory::yes;end enquiry.\
        data::x;type::integer;end data.";
    let calls = "add 0 i1\nrow 1 0 50\nrun 256 1024\nrow 1 0 50\nrow 1 0 42\nrow 0 1 6\n";
    answers(text, calls, &["done", "b0", "quiet 2", "b1", "i1", "in_progress"]);
}

const TRIGGERED: &str = "plan::root;component::a;component::b;end plan.\
    action::a;trigger::rain;end action.action::b;end action.";

/// rain starts a; confirmed, it completes, and being still triggered it is
/// initialised in the next cycle, ready for the next trigger.
#[test]
fn a_trigger_and_its_new_start() {
    let calls = "run 256 1024\nrow 0 1 6\ntrigger 7261696e\nrow 0 1 12\nrun 256 1024\nrow 0 1 6\n\
        row 0 1 12\nconfirm 1\nrun 1 1024\nrow 0 1 6\nrun 256 1024\nrow 0 1 6\nrow 0 1 12\nrow 0 1 18\n\
        trigger 7261696e\nrun 256 1024\nrow 0 1 6\n";
    let expected = [
        "quiet 2", "dormant", "done", "b1", "quiet 1", "in_progress", "b1", "done", "bounded 1", "completed",
        "quiet 1", "dormant", "b0", "i0", "done", "quiet 1", "in_progress",
    ];
    answers(TRIGGERED, calls, &expected);
}

#[test]
fn a_trigger_is_byte_exact_and_needs_the_plan_in_progress() {
    let reads = "row 0 1 12\n";
    answers(TRIGGERED, &format!("trigger 7261696e\n{reads}"), &["done", "none"]);
    let after = |trigger: &str| format!("run 256 1024\ntrigger {trigger}\n{reads}");
    answers(TRIGGERED, &after("5261696e"), &["quiet 2", "done", "b0"]);
    answers(TRIGGERED, &after("7261696e20"), &["quiet 2", "done", "b0"]);
    answers(TRIGGERED, &after("-"), &["quiet 2", "done", "b0"]);
    answers(TRIGGERED, &after("7261696e"), &["quiet 2", "done", "b1"]);
    let empty = TRIGGERED.replace("rain", "''");
    answers(&empty, &after("-"), &["quiet 2", "done", "b1"]);
    answers(
        "plan::root;trigger::go;end plan.",
        "trigger 676f\nrow 0 0 12\nrun 9 1024\n",
        &["done", "none", "quiet 0"],
    );
}

/// A trigger reaches a task in any state; it has no effect on one in progress
/// until that completes.
#[test]
fn a_trigger_reaches_a_task_in_any_state() {
    let calls = "run 256 1024\ntrigger 7261696e\nrun 256 1024\ntrigger 7261696e\nrun 256 1024\nrow 0 1 6\n";
    answers(TRIGGERED, calls, &["quiet 2", "done", "quiet 1", "done", "quiet 0", "in_progress"]);
}

/// Cycle 3: a completes. Cycle 4: the root ends b, which is in progress, and
/// c, which waits. Cycle 5: the root completes.
#[test]
fn a_terminal_component_ends_its_plan() {
    let text = |terminal: &str| {
        format!(
            "plan::root;component::a;{terminal}component::b;component::c;schedule_constraint::completed(b);\
             end plan.enquiry::a;end enquiry.action::b;end action.action::c;end action."
        )
    };
    let reads = "row 0 0 6\nrow 0 1 6\nrow 0 2 6\nrow 0 3 6\n";
    let calls = format!("run 4 1024\n{reads}run 256 1024\n{reads}");
    let ended = ["bounded 4", "in_progress", "completed", "discarded", "discarded"];
    let over = ["quiet 1", "completed", "completed", "discarded", "discarded"];
    answers(&text("terminal::yes;"), &calls, &[ended, over].concat());
    let goes_on = ["quiet 3", "in_progress", "completed", "in_progress", "dormant"];
    let same = ["quiet 0", "in_progress", "completed", "in_progress", "dormant"];
    answers(&text("terminal::no;"), &calls, &[goes_on, same].concat());
    answers(&text(""), &calls, &[goes_on, same].concat());
}

/// A false precondition discards p; q waits for p alone and is discarded with
/// it; r waits for p and s, and s completes, so that r starts.
#[test]
fn what_a_false_precondition_discards() {
    let text = "plan::root;component::p;component::q;schedule_constraint::completed(p);\
        component::s;component::r;schedule_constraint::completed(p);schedule_constraint::completed(s);\
        end plan.enquiry::p;precondition::x>1;end enquiry.enquiry::q;end enquiry.enquiry::r;end enquiry.\
        enquiry::s;end enquiry.data::x;type::integer;end data.";
    let reads = "row 0 1 6\nrow 0 2 6\nrow 0 3 6\nrow 0 4 6\nrow 0 0 6\n";
    let calls = format!("run 2 1024\n{reads}run 1 1024\n{reads}run 256 1024\n{reads}");
    let second = ["bounded 2", "discarded", "dormant", "dormant", "in_progress", "in_progress"];
    let third = ["bounded 1", "discarded", "discarded", "dormant", "completed", "in_progress"];
    let last = ["quiet 3", "discarded", "discarded", "completed", "completed", "completed"];
    answers(text, &calls, &[second, third, last].concat());
    let calls = format!("add 0 i2\nrun 256 1024\n{reads}");
    let all = ["done", "quiet 6", "completed", "completed", "completed", "completed", "completed"];
    answers(text, &calls, &all);
}

#[test]
fn a_root_with_a_precondition() {
    let text = "plan::root;precondition::x=1;component::a;end plan.action::a;end action.\
        data::x;type::integer;end data.";
    let reads = "row 0 0 6\nrow 0 0 30\nrow 0 1 6\nrow 0 1 18\n";
    answers(
        text,
        &format!("time 5\nrun 256 1024\n{reads}"),
        &["done", "quiet 1", "discarded", "@5", "dormant", "none"],
    );
    answers(
        text,
        &format!("add 0 i1\nrun 256 1024\n{reads}"),
        &["done", "quiet 2", "in_progress", "none", "in_progress", "i1"],
    );
}

#[test]
fn a_root_that_waits() {
    let text = "plan::root;wait_condition::x=1;precondition::1=2;end plan.data::x;type::integer;end data.";
    answers(
        text,
        "run 256 1024\nadd 0 i1\nrun 256 1024\nrow 0 0 6\n",
        &["quiet 0", "done", "quiet 1", "discarded"],
    );
}

#[test]
fn a_circle_of_constraints_waits_for_ever() {
    let text = "plan::root;component::a;schedule_constraint::completed(b);component::b;\
        schedule_constraint::completed(a);end plan.enquiry::a;end enquiry.enquiry::b;end enquiry.";
    answers(
        text,
        "run 256 1024\nrow 0 1 6\nrow 0 2 6\nrow 0 0 6\n",
        &["quiet 1", "dormant", "dormant", "in_progress"],
    );
}

/// terminate discards what is in progress below, down to the last level, and
/// then the plan itself completes.
#[test]
fn terminate_goes_down_the_tree() {
    let text = "plan::root;terminate::stop=yes;component::p;end plan.plan::p;component::a;end plan.\
        action::a;end action.data::stop;type::boolean;end data.";
    let reads = "row 0 0 6\nrow 0 1 6\nrow 0 2 6\n";
    let calls = format!("run 256 1024\nadd 0 t594553\nrun 1 1024\n{reads}run 256 1024\n{reads}");
    let first = ["quiet 3", "done", "bounded 1", "in_progress", "discarded", "discarded"];
    answers(text, &calls, &[&first[..], &["quiet 1", "completed", "discarded", "discarded"]].concat());
}

/// Start is asked before Discard: c starts in the very cycle in which its plan
/// is discarded, and goes on without it.
#[test]
fn a_task_may_start_while_its_plan_is_discarded() {
    let text = "plan::root;terminate::x=1;component::p;end plan.plan::p;component::c;component::d;end plan.\
        action::c;wait_condition::x=1;end action.action::d;end action.data::x;type::integer;end data.";
    let reads = "row 0 0 6\nrow 0 1 6\nrow 0 2 6\nrow 0 3 6\n";
    let calls = format!(
        "run 256 1024\nadd 0 i1\nrun 1 1024\n{reads}run 256 1024\n{reads}confirm 2\nrun 9 1024\n{reads}"
    );
    let first = ["quiet 3", "done", "bounded 1", "in_progress", "discarded", "in_progress", "discarded"];
    let second = ["quiet 1", "completed", "discarded", "in_progress", "discarded"];
    let third = ["done", "quiet 1", "completed", "discarded", "completed", "discarded"];
    answers(text, &calls, &[&first[..], &second, &third].concat());
}

/// A task with a trigger is discarded for its precondition before one comes;
/// a trigger does not bring it back.
#[test]
fn a_precondition_discards_before_the_trigger() {
    let text = "plan::root;component::a;component::b;end plan.\
        action::a;trigger::rain;precondition::1=2;end action.action::b;end action.";
    let calls = "run 256 1024\nrow 0 1 6\ntrigger 7261696e\nrow 0 1 12\nrun 256 1024\nrow 0 1 6\n";
    answers(text, calls, &["quiet 2", "discarded", "done", "b1", "quiet 0", "discarded"]);
}

/// A terminal task keeps its trigger and is not initialised: its plan ends.
#[test]
fn a_triggered_terminal_task_ends_its_plan() {
    let text = TRIGGERED.replace("component::a;", "component::a;terminal::yes;");
    let calls =
        "run 256 1024\ntrigger 7261696e\nrun 256 1024\nconfirm 1\nrun 256 1024\nrow 0 0 6\nrow 0 1 6\n\
                 row 0 1 12\nrow 0 2 6\n";
    let expected =
        ["quiet 2", "done", "quiet 1", "done", "quiet 3", "completed", "completed", "b1", "discarded"];
    answers(&text, calls, &expected);
}

/// A plan that is triggered a second time initialises all that is below it.
#[test]
fn a_triggered_plan_begins_anew() {
    let text = "plan::root;component::p;component::b;end plan.plan::p;trigger::go;component::q;end plan.\
        enquiry::q;postcondition::x=if(isknown(x),1,x+1);end enquiry.action::b;end action.\
        data::x;type::integer;end data.";
    let reads = "row 0 1 6\nrow 0 2 6\nrow 0 2 18\nrow 1 0 42\n";
    let calls = format!(
        "run 256 1024\ntrigger 676f\nrun 4 1024\n{reads}run 256 1024\n{reads}trigger 676f\nrun 256 1024\n{reads}"
    );
    let first = ["quiet 2", "done", "bounded 4", "completed", "completed", "i1", "i1"];
    let second = ["quiet 1", "dormant", "dormant", "i0", "i1"];
    let third = ["done", "quiet 5", "dormant", "dormant", "i0", "i2"];
    answers(text, &calls, &[&first[..], &second, &third].concat());
}

/// Only components have a name row: `root` finds no task.
#[test]
fn the_root_is_not_found_by_name() {
    let text = |condition: &str| {
        format!("plan::root;component::a;end plan.action::a;wait_condition::{condition};end action.")
    };
    let calls = "run 256 1024\nrow 0 1 6\n";
    answers(&text("is_in_progress(root)"), calls, &["quiet 1", "dormant"]);
    answers(&text("not(is_in_progress(root))"), calls, &["quiet 1", "dormant"]);
    answers(&text("isknown(is_in_progress(root))"), calls, &["quiet 2", "in_progress"]);
    answers(&text("is_dormant(A)"), calls, &["quiet 2", "in_progress"]);
}

#[test]
fn empty_names() {
    let text = "plan::'';component::a;component::'A b';schedule_constraint::completed(a);end plan.\
        enquiry::a;source::'';mandatory::yes;end enquiry.action::'A b';precondition::''='' ;\
        postcondition::''=\"\";end action.data::'';type::text;end data.";
    let calls = "run 256 1024\nadd 0 t\nrun 256 1024\nrow 0 2 6\nconfirm 2\nrun 256 1024\nrow 1 0 42\n";
    answers(text, calls, &["quiet 2", "done", "quiet 2", "in_progress", "done", "quiet 2", "t"]);
    let text = "plan::root;component::'';component::b;end plan.enquiry::'';end enquiry.\
        action::b;wait_condition::is_completed('');end action.";
    answers(text, "run 256 1024\nrow 0 1 6\nrow 0 2 6\n", &["quiet 4", "completed", "in_progress"]);
}

#[test]
fn time_may_go_back_and_is_told_whole() {
    let text = "plan::root;component::a;end plan.action::a;end action.";
    let calls = "time 4294967295\nrun 256 1024\nrow 0 0 29\ntime 3\nconfirm 1\nrun 256 1024\nrow 0 1 31\n\
                 row 0 1 29\n";
    answers(text, calls, &["done", "quiet 2", "@4294967295", "done", "done", "quiet 2", "@3", "@4294967295"]);
}

/// Three plots stand 12, 3 and 15 above the water: the minimum counts.
#[test]
fn the_three_plots() {
    let text = "plan::root;component::ask;component::note;schedule_constraint::completed(ask);end plan.\
        enquiry::ask;source::plots;mandatory::yes;end enquiry.\
        action::note;postcondition::lowest=min(plots) and mean=sum(plots)/count(plots);end action.\
        data::plots;type::setof_integer;end data.data::lowest;type::integer;end data.\
        data::mean;type::real;end data.";
    let calls = "run 256 1024\nadd 0 l(i12,i3,i15)\nrun 256 1024\nconfirm 2\nrun 256 1024\nrow 1 1 42\n\
                 row 1 2 42\n";
    answers(text, calls, &["quiet 2", "done", "quiet 2", "done", "quiet 2", "i3", "r10000"]);
}

/// The deepest nest of plans: one level starts a cycle, one level ends a cycle.
#[test]
fn plans_nested_to_the_limit() {
    let mut text = "plan::p0;component::p1;end plan.".to_string();
    for number in 1..31 {
        text += &format!("plan::p{number};component::p{};end plan.", number + 1);
    }
    text += "plan::p31;end plan.";
    answers(&text, "run 256 1024\nrow 0 0 6\nrow 0 31 6\n", &["quiet 64", "completed", "completed"]);
}
