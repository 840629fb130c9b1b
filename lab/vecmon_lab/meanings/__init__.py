"""The meaning of each instruction: records with sentences, formulas that can be evaluated, and the reasons for an element's value."""
