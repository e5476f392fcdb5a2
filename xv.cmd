@node "%~dp0xv.mjs" %*
