"""The command `amphorust`: JSON Schema to sheets, the proved library over them and over JSON, its answers in words. Nothing
here is proved, and nothing here decides a verdict.

In reading order: `fault` (why there is no verdict), `reading` (JSON text of schemas), `inputs` (files, lines, folders),
`sheets` (words and bundles); `keywords`, `references`, `rulesheets`, `structured` and `schemas` (to rule sheets);
`building`, `library` and `queues` (the library reads and judges); `refusals`, `words`, `records`, `explain` and `causes`
(its answers in words); `telling` and `command`. `worker.c` makes the library's calls on a machine that cannot load it.
"""
VERSION = '0.2.0'
