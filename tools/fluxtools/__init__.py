"""What the programs of tools/ share: words, files, texts of ids and hosts, graph files, journals."""
