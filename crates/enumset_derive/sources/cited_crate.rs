#[derive(EnumSetType)]
#[enumset(crate_name = "sets", no_ops)]
enum A {
    X,
}

#[derive(EnumSetType)]
#[enumset(crate_name = "sets", no_ops)]
enum B {
    X,
}
