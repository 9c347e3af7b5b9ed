//! The text of a tree: its sites, and then its steps, each a line, indented by two blanks for each level.

use cranelift_isle::sema::{Sym, TermEnv, TermId, TypeEnv, TypeId, VariantId};
use cranelift_isle::serialize::{Block, ControlFlow, EvalStep, MatchArm};
use cranelift_isle::trie_again::{Binding, BindingId, Constraint, RuleSet};

/// What the numbers of types and terms mean.
#[derive(Clone, Copy)]
pub struct Names<'a> {
    pub types: &'a TypeEnv,
    pub terms: &'a TermEnv,
}

impl Names<'_> {
    /// The text of a term's tree.
    pub fn tree(self, term: TermId, rules: &RuleSet, block: &Block) -> String {
        let mut out = format!("term {}\n", self.term(term));
        for (number, site) in rules.bindings.iter().enumerate() {
            out += &format!("  b{number} = {}\n", self.site(site));
        }
        self.push_block(&mut out, 1, block);
        out
    }

    fn text(&self, name: Sym) -> &str {
        &self.types.syms[name.index()]
    }

    /// The name of a term.
    pub fn term(&self, term: TermId) -> &str {
        self.text(self.terms.terms[term.index()].name)
    }

    fn ty(&self, ty: TypeId) -> &str {
        self.types.types[ty.index()].name(self.types)
    }

    // An enum's name, a point, and the variant's name.
    fn variant(&self, ty: TypeId, variant: VariantId) -> &str {
        self.text(self.types.get_variant(ty, variant).fullname)
    }

    fn site(&self, site: &Binding) -> String {
        match site {
            Binding::ConstBool { val, .. } => format!("bool {val}"),
            Binding::ConstInt { val, ty } => format!("int {val} {}", self.ty(*ty)),
            Binding::ConstPrim { val } => format!("prim {}", self.text(*val)),
            Binding::Argument { index } => format!("arg {}", index.index()),
            Binding::Extractor { term, parameter } => {
                format!("extract {}{}", self.term(*term), listed(&[*parameter]))
            }
            Binding::Constructor {
                term,
                parameters,
                instance,
            } => self.call(*term, *instance, parameters),
            Binding::Iterator { source } => format!("pick{}", listed(&[*source])),
            Binding::MakeVariant {
                ty,
                variant,
                fields,
            } => format!("make {}{}", self.variant(*ty, *variant), listed(fields)),
            Binding::MatchVariant {
                source,
                variant,
                field,
            } => format!(
                "field {} of b{} variant {}",
                field.index(),
                source.index(),
                variant.index()
            ),
            Binding::MakeStruct { ty, fields } => {
                format!("make {}{}", self.ty(*ty), listed(fields))
            }
            Binding::ExtractStruct { source, field } => {
                format!("field {} of b{}", field.index(), source.index())
            }
            Binding::MakeSome { inner } => format!("some{}", listed(&[*inner])),
            Binding::MatchSome { source } => format!("unwrap{}", listed(&[*source])),
            Binding::MatchTuple { source, field } => {
                format!("part {} of b{}", field.index(), source.index())
            }
        }
    }

    // A constructor's call. An impure one has a number.
    fn call(&self, term: TermId, instance: u32, parameters: &[BindingId]) -> String {
        let name = self.term(term);
        let parameters = listed(parameters);
        if instance == 0 {
            format!("call {name}{parameters}")
        } else {
            format!("call {name} #{instance}{parameters}")
        }
    }

    fn push_block(&self, out: &mut String, level: usize, block: &Block) {
        for step in &block.steps {
            self.push_step(out, level, step);
        }
    }

    fn push_step(&self, out: &mut String, level: usize, step: &EvalStep) {
        if !step.bind_order.is_empty() {
            push_line(out, level, &format!("bind{}", listed(&step.bind_order)));
        }
        match &step.check {
            ControlFlow::Match { source, arms } => {
                push_line(out, level, &format!("match{}", listed(&[*source])));
                for arm in arms {
                    push_line(out, level + 1, &format!("{}:", self.pattern(arm)));
                    self.push_block(out, level + 2, &arm.body);
                }
            }
            ControlFlow::Equal { a, b, body } => {
                push_line(out, level, &format!("equal{}", listed(&[*a, *b])));
                self.push_block(out, level + 1, body);
            }
            ControlFlow::Loop { result, body } => {
                push_line(out, level, &format!("loop{}", listed(&[*result])));
                self.push_block(out, level + 1, body);
            }
            ControlFlow::Return { result, .. } => {
                push_line(out, level, &format!("return{}", listed(&[*result])));
            }
        }
    }

    // What an arm asks, and the sites that it binds.
    fn pattern(&self, arm: &MatchArm) -> String {
        let asked = match arm.constraint {
            Constraint::Variant { ty, variant, .. } => {
                format!("variant {}", self.variant(ty, variant))
            }
            Constraint::Struct { ty, .. } => format!("struct {}", self.ty(ty)),
            Constraint::ConstBool { val, .. } => format!("bool {val}"),
            Constraint::ConstInt { val, ty } => format!("int {val} {}", self.ty(ty)),
            Constraint::ConstPrim { val } => format!("prim {}", self.text(val)),
            Constraint::Some => "some".into(),
        };
        let bound: String = arm
            .bindings
            .iter()
            .map(|site| match site {
                Some(site) => listed(&[*site]),
                None => " _".into(),
            })
            .collect();
        asked + &bound
    }
}

// Sites, each with a blank before it.
fn listed(sites: &[BindingId]) -> String {
    sites
        .iter()
        .map(|site| format!(" b{}", site.index()))
        .collect()
}

fn push_line(out: &mut String, level: usize, line: &str) {
    *out += &"  ".repeat(level);
    *out += line;
    out.push('\n');
}
