//! An expression as a tree, for tests that change or take apart its text.

use evaluator::expression::{parts, Join, Name, Part};
use evaluator::policy::{Order, Sort};

#[derive(Clone, Debug, PartialEq)]
pub enum Tree {
    /// A table or a bound name.
    Leaf(String),
    /// A scope or closure, as written, behind its operand.
    Post(Box<Tree>, String),
    Join(Join, Box<Tree>, Box<Tree>),
    Override(Box<[Tree; 3]>),
    /// `(t:x.E)(F)`: x, E and F.
    Template(String, Box<Tree>, Box<Tree>),
}

/// A file's lines before its expression's text, and that text.
pub fn split_expression(file: &[u8]) -> Option<(&str, &str)> {
    let file = std::str::from_utf8(file).ok()?.strip_suffix('\n')?;
    let line = file.rfind("\nE,")? + "\nE,".len();
    let start = line + file[line..].find(',')? + 1;
    Some(file.split_at(start))
}

fn named(name: &Name) -> String {
    String::from_utf8_lossy(name.text).into_owned()
}

fn letter(sort: &Sort) -> &'static str {
    ["s", "o", "a"][sort.index()]
}

fn sign(order: &Order) -> &'static str {
    match order {
        Order::Le => "<=",
        Order::Ge => ">=",
        Order::Lt => "<",
        Order::Gt => ">",
        Order::Eq => "=",
    }
}

/// The tree of an expression of the grammar.
pub fn tree(text: &str) -> Option<Tree> {
    let mut trees: Vec<Tree> = Vec::new();
    let mut bound = Vec::new();
    for part in parts(text.as_bytes()).ok()? {
        let tree = match part {
            Part::Table(name) => Tree::Leaf(named(&name)),
            Part::Closure(name) => behind(&mut trees, format!("*{}", named(&name)))?,
            Part::Compared(sort, order, name) => {
                let (letter, sign) = (letter(&sort), sign(&order));
                behind(&mut trees, format!("^[{letter}{sign}{}]", named(&name)))?
            }
            Part::Marked(name, sort) => {
                let scope = format!("^[{}({})]", named(&name), letter(&sort));
                behind(&mut trees, scope)?
            }
            Part::Join(join) => {
                let (right, left) = (trees.pop()?, trees.pop()?);
                Tree::Join(join, Box::new(left), Box::new(right))
            }
            Part::Override => {
                let (third, second, first) = (trees.pop()?, trees.pop()?, trees.pop()?);
                Tree::Override(Box::new([first, second, third]))
            }
            Part::Bind(name) => {
                bound.push(named(&name));
                continue;
            }
            Part::Unbind => {
                let (e, f) = (trees.pop()?, trees.pop()?);
                Tree::Template(bound.pop()?, Box::new(e), Box::new(f))
            }
        };
        trees.push(tree);
    }
    trees.pop()
}

fn behind(trees: &mut Vec<Tree>, postfix: String) -> Option<Tree> {
    Some(Tree::Post(Box::new(trees.pop()?), postfix))
}

impl Tree {
    /// The text, with no more brackets than it needs.
    pub fn text(&self) -> String {
        match self {
            Tree::Leaf(name) => name.clone(),
            Tree::Post(operand, postfix) => operand.factor() + postfix,
            Tree::Join(join, left, right) => {
                let sign = match join {
                    Join::Plus => "+",
                    Join::And => "&",
                    Join::Minus => "-",
                };
                left.text() + sign + &right.factor()
            }
            Tree::Override(parts) => {
                let texts = [0, 1, 2].map(|part| parts[part].text());
                format!("o({})", texts.join(","))
            }
            Tree::Template(name, e, f) => format!("(t:{name}.{})({})", e.text(), f.text()),
        }
    }

    fn factor(&self) -> String {
        match self {
            Tree::Join(..) => format!("({})", self.text()),
            _ => self.text(),
        }
    }

    /// The trees right below.
    pub fn below(&self) -> Vec<&Tree> {
        match self {
            Tree::Leaf(_) => Vec::new(),
            Tree::Post(operand, _) => vec![operand],
            Tree::Join(_, left, right) => vec![left, right],
            Tree::Override(parts) => parts.iter().collect(),
            Tree::Template(_, e, f) => vec![e, f],
        }
    }

    /// The same with each tree right below changed.
    pub fn map_below(&self, change: &mut dyn FnMut(&Tree) -> Tree) -> Tree {
        match self {
            Tree::Leaf(_) => self.clone(),
            Tree::Post(operand, postfix) => Tree::Post(Box::new(change(operand)), postfix.clone()),
            Tree::Join(join, left, right) => {
                Tree::Join(*join, Box::new(change(left)), Box::new(change(right)))
            }
            Tree::Override(parts) => {
                Tree::Override(Box::new([0, 1, 2].map(|part| change(&parts[part]))))
            }
            Tree::Template(name, e, f) => {
                Tree::Template(name.clone(), Box::new(change(e)), Box::new(change(f)))
            }
        }
    }

    /// Whether the name stands in the tree where no template in it binds it.
    pub fn has_free(&self, name: &str) -> bool {
        match self {
            Tree::Leaf(leaf) => leaf == name,
            Tree::Template(bound, e, f) => f.has_free(name) || bound != name && e.has_free(name),
            _ => self.below().iter().any(|tree| tree.has_free(name)),
        }
    }
}
