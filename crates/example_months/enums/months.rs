#[derive(enumset::EnumSetType, Debug)]
pub enum Month {
    January, February, March, April, May, June, July, August, September, October, November, December,
}
