//! Stand-in for `zigbee_macros`: `impl_byte!` and `construct_ib!`, as far as the compiled source uses them.
use proc_macro::{Delimiter, Spacing, TokenStream, TokenTree};

// ---- reading tokens ----

struct Item {
    attrs: Vec<TokenStream>, // inside of #[...]
    head: String,            // visibility and everything up to the name
    kind: String,            // struct, enum
    name: String,
    body: TokenStream,
    delimiter: Delimiter,
}

struct Field {
    attrs: Vec<TokenStream>,
    rest: Vec<TokenTree>,
}

fn attr_name(a: &TokenStream) -> String {
    a.clone().into_iter().next().map(|t| t.to_string()).unwrap_or_default()
}

// value of an attribute `name = value`
fn attr_value(attrs: &[TokenStream], name: &str) -> Option<String> {
    attrs.iter().find(|a| attr_name(a) == name).map(|a| a.clone().into_iter().skip(2).collect::<TokenStream>().to_string())
}

fn take_attrs(tokens: &[TokenTree], at: &mut usize) -> Vec<TokenStream> {
    let mut attrs = Vec::new();
    while matches!(tokens.get(*at), Some(TokenTree::Punct(p)) if p.as_char() == '#') {
        let Some(TokenTree::Group(g)) = tokens.get(*at + 1) else { panic!("attribute") };
        attrs.push(g.stream());
        *at += 2;
    }
    attrs
}

fn take_item(input: TokenStream) -> Item {
    let tokens: Vec<TokenTree> = input.into_iter().collect();
    let mut at = 0;
    let attrs = take_attrs(&tokens, &mut at);
    let mut head = String::new();
    loop {
        let t = &tokens[at];
        at += 1;
        let s = t.to_string();
        if s == "struct" || s == "enum" {
            let name = tokens[at].to_string();
            let TokenTree::Group(g) = &tokens[at + 1] else { panic!("body of {name}") };
            return Item { attrs, head, kind: s, name, body: g.stream(), delimiter: g.delimiter() };
        }
        head.push_str(&s);
        head.push(' ');
    }
}

// fields or variants, parted by commas outside <...>
fn fields(body: TokenStream) -> Vec<Field> {
    let tokens: Vec<TokenTree> = body.into_iter().collect();
    let mut out = Vec::new();
    let mut at = 0;
    while at < tokens.len() {
        let attrs = take_attrs(&tokens, &mut at);
        let mut rest = Vec::new();
        let mut depth = 0i32;
        while at < tokens.len() {
            let t = tokens[at].clone();
            at += 1;
            if let TokenTree::Punct(p) = &t {
                match p.as_char() {
                    '<' => depth += 1,
                    '>' => depth -= 1,
                    ',' if depth == 0 => break,
                    _ => (),
                }
            }
            rest.push(t);
        }
        out.push(Field { attrs, rest });
    }
    out
}

fn text(tokens: &[TokenTree]) -> String {
    tokens.iter().cloned().collect::<TokenStream>().to_string()
}

fn is_punct(t: &TokenTree, c: char) -> bool {
    matches!(t, TokenTree::Punct(p) if p.as_char() == c)
}

// (visibility, name, type, default) of a named field
fn named(f: &Field) -> (String, String, String, Option<String>) {
    let colon = f
        .rest
        .iter()
        .position(|t| matches!(t, TokenTree::Punct(p) if p.as_char() == ':' && p.spacing() == Spacing::Alone))
        .expect("field: type");
    let vis = text(&f.rest[..colon - 1]);
    let name = f.rest[colon - 1].to_string();
    let after = &f.rest[colon + 1..];
    match after.iter().position(|t| is_punct(t, '=')) {
        Some(eq) => (vis, name, text(&after[..eq]), Some(text(&after[eq + 1..]))),
        None => (vis, name, text(after), None),
    }
}

fn kept_attrs(attrs: &[TokenStream]) -> String {
    attrs
        .iter()
        .filter(|a| matches!(attr_name(a).as_str(), "doc" | "derive" | "cfg_attr" | "allow" | "default"))
        .map(|a| format!("#[{a}]\n"))
        .collect()
}

// ---- impl_byte! ----

/// The item itself, with `TryRead` and `TryWrite` field by field.
#[proc_macro]
pub fn impl_byte(input: TokenStream) -> TokenStream {
    let item = take_item(input);
    let name = &item.name;
    let mut out = kept_attrs(&item.attrs);
    out.push_str(&format!("{} {} {name} ", item.head, item.kind));
    let list = fields(item.body.clone());
    let (read, write);
    if item.kind == "enum" {
        let mut variants = String::new();
        let (mut r, mut w) = (String::new(), String::new());
        for f in &list {
            let v = f.rest[0].to_string();
            if attr_name_in(&f.attrs, "fallback") {
                variants.push_str(&format!("{}{v}(u8),\n", kept_attrs(&f.attrs)));
                r.push_str(&format!("other => Self::{v}(other),\n"));
                w.push_str(&format!("Self::{v}(other) => other,\n"));
            } else {
                let number = text(&f.rest[2..]);
                variants.push_str(&format!("{}{v},\n", kept_attrs(&f.attrs)));
                r.push_str(&format!("{number} => Self::{v},\n"));
                w.push_str(&format!("Self::{v} => {number},\n"));
            }
        }
        out.push_str(&format!("{{ {variants} }}\n"));
        read = format!("let (tag, n) = <u8 as ::byte::TryRead<()>>::try_read(bytes, ())?; Ok((match tag {{ {r} }}, n))");
        write = format!("let tag: u8 = match self {{ {w} }}; ::byte::TryWrite::try_write(tag, bytes, ())");
    } else if item.delimiter == Delimiter::Parenthesis {
        out.push_str(&format!("({});\n", item.body));
        read = "let (v, n) = ::byte::TryRead::try_read(bytes, ())?; Ok((Self(v), n))".to_string();
        write = "::byte::TryWrite::try_write(self.0, bytes, ())".to_string();
    } else {
        let (mut decl, mut r, mut w) = (String::new(), String::new(), String::new());
        for f in &list {
            let (vis, field, ty, _) = named(f);
            decl.push_str(&format!("{}{vis} {field}: {ty},\n", kept_attrs(&f.attrs)));
            r.push_str(&format!("{field}: ::byte::BytesExt::read_with(bytes, offset, ())?,\n"));
            w.push_str(&format!("::byte::BytesExt::write_with(bytes, offset, self.{field}, ())?;\n"));
        }
        out.push_str(&format!("{{ {decl} }}\n"));
        read = format!("let offset = &mut 0; let v = Self {{ {r} }}; Ok((v, *offset))");
        write = format!("let offset = &mut 0; {w} Ok(*offset)");
    }
    out.push_str(&format!(
        "impl<'bytes> ::byte::TryRead<'bytes, ()> for {name} {{
            fn try_read(bytes: &'bytes [u8], _: ()) -> ::byte::Result<(Self, usize)> {{ {read} }}
        }}
        impl ::byte::TryWrite<()> for {name} {{
            fn try_write(self, bytes: &mut [u8], _: ()) -> ::byte::Result<usize> {{ {write} }}
        }}\n"
    ));
    out.parse().expect("tokens")
}

fn attr_name_in(attrs: &[TokenStream], name: &str) -> bool {
    attrs.iter().any(|a| attr_name(a) == name)
}

// ---- construct_ib! ----

/// One lock for each field, a static that holds them, a getter and a setter for each. Every setter tells `crate::hooks::updated` which field it
/// wrote.
#[proc_macro]
pub fn construct_ib(input: TokenStream) -> TokenStream {
    let item = take_item(input);
    let name = &item.name;
    let ids = attr_value(&item.attrs, "ids").expect("ids");
    let fields_name = attr_value(&item.attrs, "fields").expect("fields");
    let (mut decl, mut init, mut reset, mut variants, mut methods) =
        (String::new(), String::new(), String::new(), String::new(), String::new());
    for f in &fields(item.body.clone()) {
        let (_, field, ty, default) = named(f);
        let default = default.unwrap_or_else(|| "::core::default::Default::default()".to_string());
        decl.push_str(&format!("{field}: ::spin::RwLock<{ty}>,\n"));
        init.push_str(&format!("{field}: ::spin::RwLock::new({default}),\n"));
        reset.push_str(&format!("*self.{field}.write() = {default};\n"));
        variants.push_str(&format!("{field},\n"));
        if attr_value(&f.attrs, "cell").as_deref() == Some("atomic") {
            methods.push_str(&format!("pub fn {field}(&self) -> {ty} {{ *self.{field}.read() }}\n"));
        } else {
            methods.push_str(&format!("pub fn {field}(&self) -> ::spin::ReadGuard<'_, {ty}> {{ self.{field}.read() }}\n"));
        }
        for setter in ["setter", "quiet_setter"] {
            if let Some(setter) = attr_value(&f.attrs, setter) {
                methods.push_str(&format!(
                    "pub fn {setter}<R>(&self, f: impl FnOnce(&mut {ty}) -> R) -> R {{
                        let r = f(&mut self.{field}.write());
                        crate::hooks::updated({ids}::{field});
                        r
                    }}\n"
                ));
            }
        }
        if let Some(table) = attr_value(&f.attrs, "table") {
            methods.push_str(&format!(
                "pub fn {table}(&self) -> crate::hooks::TableMut<'_, {ty}> {{
                    crate::hooks::TableMut(self.{field}.write())
                }}\n"
            ));
        }
    }
    let out = format!(
        "{docs}
        {head} struct {name} {{ {decl} }}
        #[allow(non_camel_case_types)]
        #[derive(Debug, Clone, Copy, PartialEq, Eq)]
        pub enum {ids} {{ {variants} }}
        pub struct {fields_name};
        impl {name} {{
            {methods}
            /// Every field as at the start; the real one has no such function.
            pub fn reset_all(&self) {{ {reset} }}
        }}
        static INFORMATION_BASE: ::std::sync::LazyLock<{name}> =
            ::std::sync::LazyLock::new(|| {name} {{ {init} }});
        /// The information base, one for the whole program.
        pub fn get_ref() -> &'static {name} {{ &INFORMATION_BASE }}\n",
        docs = kept_attrs(&item.attrs),
        head = item.head,
    );
    out.parse().expect("tokens")
}
