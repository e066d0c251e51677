"""The tools around bootmem, each a module with a `main(words)`, and the modules that they share.
These can also be used from elsewhere, such as the tests of a virtual machine monitor:

    inputs    zero page, extension, SRAT, SLIT and EFI memory map as bytes
    runner    finding and running the program, and its reports for a list of words
    library   calls of libbootmem, without a process
    reports   texts of reports, and their lines as spans of addresses
    objects   reports as values of JSON
    grammar   the table of the reports' lines, which all readers of reports use
    ranges    addresses, sizes and ranges

    >>> from bootmem_tools import inputs, library, reports
    >>> page = inputs.zero_page([(0, 0x9fc00, inputs.RAM), (0x100000, 0x7ff00000, inputs.RAM)])
    >>> text = library.run(["--report", "map,owners", "zp.bin"], {"zp.bin": page}).decode()
    >>> spans = reports.spans("owners", reports.split_reports(text)["owners"])
    >>> [(hex(span.first), hex(span.last), span.name) for span in spans][:2]
    [('0x0', '0xfffff', 'low-1m'), ('0x1000000', '0x2ffffff', 'kernel')]

Nothing here is proved; the program and the library are.
"""
