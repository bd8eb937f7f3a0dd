"""The definitions of specs/ as texts: what each file has, what names it, and which a public clause rests on."""
