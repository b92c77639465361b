use datafusion_common::Result;

#[derive(Debug, Clone, PartialEq, Eq, Hash)]
pub enum Volatility {
    Immutable,
}

#[derive(Debug, Clone, PartialEq, Eq, Hash)]
pub enum TypeSignature {
    Nullary,
    Any(usize),
    OneOf(Vec<TypeSignature>),
}

#[derive(Debug, Clone, PartialEq, Eq, Hash)]
pub struct Signature {
    type_signature: TypeSignature,
    volatility: Volatility,
}

impl Signature {
    pub fn one_of(types: Vec<TypeSignature>, volatility: Volatility) -> Self {
        Signature {
            type_signature: TypeSignature::OneOf(types),
            volatility,
        }
    }

    pub fn nullary(volatility: Volatility) -> Self {
        Signature {
            type_signature: TypeSignature::Nullary,
            volatility,
        }
    }

    pub fn with_parameter_names(self, _names: Vec<String>) -> Result<Self> {
        Ok(self)
    }
}
