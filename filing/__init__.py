"""From a filing and its taxonomy packages to the two plain files that xbrl-json converts."""
