//! Maps of variables.

use std::collections::{BTreeMap, HashMap};
use std::hash::BuildHasher;

/// A map from names to values.
///
/// It is implemented for [`BTreeMap`] and [`HashMap`] with keys `String` and `&str`, for [`Env`], and with
/// the feature `indexmap` for `IndexMap`. A map may also be a trait object:
///
/// ```
/// use std::collections::BTreeMap;
/// use subst::VariableMap;
///
/// struct Shouted;
///
/// impl VariableMap<'_> for Shouted {
///     type Value = String;
///
///     fn get(&self, key: &str) -> Option<String> {
///         Some(key.to_uppercase())
///     }
/// }
///
/// let maps: [&dyn VariableMap<Value = String>; 1] = [&Shouted];
/// assert_eq!(subst::substitute("Hello $name!", maps[0])?, "Hello NAME!");
/// # Ok::<(), subst::Error>(())
/// ```
pub trait VariableMap<'a> {
    /// The type of the values.
    type Value;

    /// Returns the value of a variable, or `None` if it is unset.
    ///
    /// An expansion calls this once for each name that it needs.
    fn get(&'a self, key: &str) -> Option<Self::Value>;
}

/// A map without variables.
#[derive(Clone, Copy, Debug)]
pub struct NoSubstitution;

impl<'a> VariableMap<'a> for NoSubstitution {
    type Value = NeverValue;

    fn get(&'a self, _key: &str) -> Option<NeverValue> {
        None
    }
}

/// The value of [`NoSubstitution`], which doesn't exist.
#[derive(Debug)]
pub enum NeverValue {}

impl<T: ?Sized> AsRef<T> for NeverValue {
    fn as_ref(&self) -> &T {
        match *self {}
    }
}

/// The variables of the environment, as texts. A variable whose value isn't UTF-8 is unset.
///
/// ```
/// std::env::set_var("GREETED", "world");
/// assert_eq!(subst::substitute("Hello $GREETED!", &subst::Env)?, "Hello world!");
/// # Ok::<(), subst::Error>(())
/// ```
#[derive(Debug)]
pub struct Env;

impl<'a> VariableMap<'a> for Env {
    type Value = String;

    fn get(&'a self, key: &str) -> Option<String> {
        std::env::var(key).ok()
    }
}

/// The variables of the environment, as bytes.
#[cfg(unix)]
#[derive(Debug)]
pub struct EnvBytes;

#[cfg(unix)]
impl<'a> VariableMap<'a> for EnvBytes {
    type Value = Vec<u8>;

    fn get(&'a self, key: &str) -> Option<Vec<u8>> {
        use std::os::unix::ffi::OsStringExt;
        std::env::var_os(key).map(OsStringExt::into_vec)
    }
}

impl<'a, V: 'a> VariableMap<'a> for BTreeMap<&str, V> {
    type Value = &'a V;

    fn get(&'a self, key: &str) -> Option<&'a V> {
        self.get(key)
    }
}

impl<'a, V: 'a> VariableMap<'a> for BTreeMap<String, V> {
    type Value = &'a V;

    fn get(&'a self, key: &str) -> Option<&'a V> {
        self.get(key)
    }
}

impl<'a, V: 'a, S: BuildHasher> VariableMap<'a> for HashMap<&str, V, S> {
    type Value = &'a V;

    fn get(&'a self, key: &str) -> Option<&'a V> {
        self.get(key)
    }
}

impl<'a, V: 'a, S: BuildHasher> VariableMap<'a> for HashMap<String, V, S> {
    type Value = &'a V;

    fn get(&'a self, key: &str) -> Option<&'a V> {
        self.get(key)
    }
}

#[cfg(feature = "indexmap")]
impl<'a, V: 'a, S: BuildHasher> VariableMap<'a> for indexmap::IndexMap<&str, V, S> {
    type Value = &'a V;

    fn get(&'a self, key: &str) -> Option<&'a V> {
        self.get(key)
    }
}

#[cfg(feature = "indexmap")]
impl<'a, V: 'a, S: BuildHasher> VariableMap<'a> for indexmap::IndexMap<String, V, S> {
    type Value = &'a V;

    fn get(&'a self, key: &str) -> Option<&'a V> {
        self.get(key)
    }
}
