"""How edits are tried that the prover must refuse, or that mean the same as before: the parts of tools/refused_edits.py."""
