" Vim syntax file for sources of m88, the assembly language of the Motorola MC88100.
" Copy it to ~/.vim/syntax/m88.vim, and set the file type of a source with
"   autocmd BufRead,BufNewFile *.s setfiletype m88
if exists("b:current_syntax")
  finish
endif

syntax case match
" Names have letters, digits, underscores, dots and dollar signs.
syntax iskeyword @,48-57,_,.,$

syntax match   m88Comment   "[;#].*$" contains=m88Todo
syntax keyword m88Todo      contained TODO FIXME XXX
syntax match   m88Label     "^\s*[A-Za-z_.$][A-Za-z0-9_.$]*\s*:"
syntax match   m88Number    "\<\(0\|[1-9][0-9]*\|0x[0-9A-Fa-f]\+\)\>"
syntax match   m88Escape    contained "\\[nt0\\\"']"
syntax region  m88Text      start=+"+ skip=+\\.+ end=+"+ oneline contains=m88Escape
syntax match   m88Character "'\(\\.\|[^\\']\)'" contains=m88Escape

syntax match   m88Register  "\<r\([0-9]\|[12][0-9]\|3[01]\)\>"
syntax match   m88Register  "\<f\=cr\([0-9]\|[1-5][0-9]\|6[0-3]\)\>"
syntax match   m88Half      "\<\(hi16\|lo16\)\ze\s*("
syntax keyword m88Condition eq0 ne0 gt0 lt0 ge0 le0 eq ne gt le lt ge hi ls lo hs

syntax keyword m88Directive .text .data .at .word .half .byte .ascii .zero .align .global .set .module

syntax keyword m88Operation and and.u and.c mask mask.u xor xor.u xor.c or or.u or.c mul divu div cmp
syntax keyword m88Operation addu addu.co addu.ci addu.cio subu subu.co subu.ci subu.cio
syntax keyword m88Operation add add.co add.ci add.cio sub sub.co sub.ci sub.cio
syntax keyword m88Operation clr set ext extu mak rot ff0 ff1
syntax keyword m88Memory    xmem.bu xmem ld.hu ld.bu ld.d ld ld.h ld.b st.d st st.h st.b lda.d lda lda.h
syntax keyword m88Memory    xmem.bu.usr xmem.usr ld.hu.usr ld.bu.usr ld.d.usr ld.usr ld.h.usr ld.b.usr
syntax keyword m88Memory    st.d.usr st.usr st.h.usr st.b.usr
syntax keyword m88Flow      br br.n bsr bsr.n bb0 bb0.n bb1 bb1.n bcnd bcnd.n jmp jmp.n jsr jsr.n
syntax keyword m88Trap      tb0 tb1 tcnd tbnd rte
syntax keyword m88Control   ldcr stcr xcr fldcr fstcr fxcr

highlight default link m88Comment   Comment
highlight default link m88Todo      Todo
highlight default link m88Label     Label
highlight default link m88Number    Number
highlight default link m88Escape    SpecialChar
highlight default link m88Text      String
highlight default link m88Character Character
highlight default link m88Register  Identifier
highlight default link m88Half      Function
highlight default link m88Condition Constant
highlight default link m88Directive PreProc
highlight default link m88Operation Statement
highlight default link m88Memory    Statement
highlight default link m88Flow      Conditional
highlight default link m88Trap      Exception
highlight default link m88Control   Special

let b:current_syntax = "m88"
