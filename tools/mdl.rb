# The rules of mdl, with which tools/lint checks the Markdown files: all but those with a reason below.
all

# A question may be a heading.
rule 'MD026', :punctuation => '.,;:!'
# The items of a numbered list have the numbers that are shown.
rule 'MD029', :style => :ordered

# Trailing spaces: some blocks are outputs of pandas, which pads its columns.
exclude_rule 'MD009'
# Line length: images and tables need long lines. tools/documents checks the others.
exclude_rule 'MD013'
# Headings with the same content: sections of two chapters, such as the examples of jobs and of programs, have the same subject.
exclude_rule 'MD024'
# Inline HTML: Markdown's own images have no width.
exclude_rule 'MD033'
