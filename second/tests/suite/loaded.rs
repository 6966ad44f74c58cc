//! A loaded guideline is plain data with its names resolved.

use crate::tree;
use second::guideline::{DeclaredType, TaskClass};
use second::load::load;

const TEXT: &str = "plan :: spring; caption :: \"Spring\"; terminate :: is_completed(drain);
  component :: dose; schedule_constraint :: completed(ask); terminal :: no;
  component :: ask;
  component :: later; schedule_constraint :: completed(dose);
    schedule_constraint :: completed(ask); terminal :: yes;
end plan.
action :: drain; trigger :: 'Rain'; end action.
plan :: later; component :: drain; end plan.
action :: dose; precondition :: Egg_Count > 200; wait_condition :: (1 = 1);
  postcondition :: dosed = \"yes\" and (EGG_count = 0); end action.
enquiry :: ask; source :: egg_count; mandatory :: yes; caption :: count_eggs; source :: Dosed; end enquiry.
data :: egg_count; type :: integer; description :: \"per gram\"; end data.
data :: Dosed; type :: boolean; end data.";

#[test]
fn tasks_and_their_numbers() {
    let loaded = load(TEXT.as_bytes()).expect("this guideline loads");
    let names: Vec<&str> = loaded.tasks.iter().map(|task| task.name.as_str()).collect();
    assert_eq!(names, ["spring", "drain", "later", "dose", "ask"]);
    let parents: Vec<Option<usize>> = loaded.tasks.iter().map(|task| task.parent_plan).collect();
    assert_eq!(parents, [None, Some(2), Some(0), Some(0), Some(0)]);
    let antecedents: Vec<&[usize]> = loaded.tasks.iter().map(|task| &task.antecedent_tasks[..]).collect();
    assert_eq!(antecedents, [&[][..], &[], &[3, 4], &[4], &[]]);
    let terminal: Vec<Option<bool>> = loaded.tasks.iter().map(|task| task.terminal).collect();
    assert_eq!(terminal, [None, None, Some(true), Some(false), None]);
    let classes: Vec<TaskClass> = loaded.tasks.iter().map(|task| task.class).collect();
    let [plan, action, enquiry] = [TaskClass::Plan, TaskClass::Action, TaskClass::Enquiry];
    assert_eq!(classes, [plan, action, plan, action, enquiry]);
}

#[test]
fn attributes_of_tasks() {
    let loaded = load(TEXT.as_bytes()).expect("this guideline loads");
    let [spring, drain, _, dose, ask] = &loaded.tasks[..] else { panic!("there are five tasks") };
    assert_eq!(spring.caption, Some(tree("\"Spring\"")));
    assert_eq!(spring.terminate_condition, Some(tree("is_completed(drain)")));
    assert_eq!(drain.trigger.as_deref(), Some("Rain"));
    assert_eq!(dose.precondition, Some(tree("Egg_Count > 200")));
    assert_eq!(dose.wait_condition, Some(tree("(1 = 1)")));
    assert_eq!(dose.postcondition, Some(vec![(1, tree("\"yes\"")), (0, tree("0"))]));
    assert_eq!(ask.postcondition, None);
    assert_eq!(ask.sources, [0, 1]);
    assert_eq!(dose.sources, []);
}

#[test]
fn items_and_sources() {
    let loaded = load(TEXT.as_bytes()).expect("this guideline loads");
    let [egg_count, dosed] = &loaded.data_items[..] else { panic!("there are two items") };
    assert_eq!((egg_count.declared, dosed.declared), (DeclaredType::Integer, DeclaredType::Boolean));
    assert_eq!(egg_count.description, Some(tree("\"per gram\"")));
    let [first, second] = &loaded.sources[..] else { panic!("there are two sources") };
    assert_eq!((first.data_item, first.mandatory), (0, Some(true)));
    assert_eq!(first.caption, Some(tree("count_eggs")));
    assert_eq!((second.data_item, second.mandatory), (1, None));
}
