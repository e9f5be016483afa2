#!/usr/bin/env python3
"""Writes histories, as a text lists them, in antt, each with a proof that it is legal.

usage: worked_histories.py OUT.antt TEXT.md.. -- LABEL[=NAME]..

A text has paragraphs 'Row LABEL (FORM): ..' or 'Row LABEL (FORM). ..' with items: a line number and a call between
backquotes, and after an arrow its reply between backquotes, which is `ok` where there is none. In the form P a context
has been created and made current on lines 4 and 5. A byte ?? of a reply is one that is not defined. The history is
called NAME, or LABEL. The gate does not run this.
"""
import re
import sys

BUF = dict(array='Array', copy_read='CopyRead', copy_write='CopyWrite', pixel_pack='PixelPack', pixel_unpack='PixelUnpack', other='Other')
FBT = dict(framebuffer='Both', read_fb='Read', draw_fb='Draw', other='Other')
KIND = dict(buffer='Buffer', texture='Texture', renderbuffer='Renderbuffer', framebuffer='Framebuffer')
FMT = dict(r8ui='R8ui', r8i='R8i', r16ui='R16ui', r16i='R16i', r32ui='R32ui', r32i='R32i', rg8ui='Rg8ui', rgba8ui='Rgba8ui',
           rgba8i='Rgba8i', rgb10_a2ui='Rgb10A2ui', rgba32ui='Rgba32ui', rgba32i='Rgba32i')
PFMT = dict(red_integer='RedInteger', rg_integer='RgInteger', rgba_integer='RgbaInteger', other='Other')
PTYPE = dict(unsigned_byte='UnsignedByte', byte='Byte', unsigned_short='UnsignedShort', short='Short', unsigned_int='UnsignedInt',
             int='Int', unsigned_int_2_10_10_10_rev='UnsignedInt2101010Rev', other='Other')
ERR = dict(INVALID_ENUM='InvalidEnum', INVALID_VALUE='InvalidValue', INVALID_OPERATION='InvalidOperation',
           INVALID_FRAMEBUFFER_OPERATION='InvalidFramebufferOperation', OUT_OF_MEMORY='OutOfMemory', NO_ERROR='NoError')
EGL = dict(BAD_ALLOC='BadAlloc', BAD_CONTEXT='BadContext', BAD_ACCESS='BadAccess', BAD_MATCH='BadMatch', BAD_PARAMETER='BadParameter',
           SUCCESS='Success')
STATUS = dict(FRAMEBUFFER_COMPLETE='Complete', FRAMEBUFFER_UNDEFINED='Undefined', INCOMPLETE_ATTACHMENT='IncompleteAttachment',
              INCOMPLETE_MISSING_ATTACHMENT='IncompleteMissingAttachment', FRAMEBUFFER_UNSUPPORTED='Unsupported')
PARAM = dict(align='Align', row='Row', skip_rows='SkipRows', skip_pixels='SkipPixels')
ACCESS = dict(r='read', w='write', i='invalidate_range', I='invalidate_buffer', u='unsynchronized', f='flush_explicit', x='unknown')


def z(s):
    n = int(s)
    return f'(pos {n})' if n >= 0 else f'(negsuc {-n - 1})'


def lst(items):
    return '(' + ' ∷ '.join(list(items) + ['[]']) + ')'


def payload(s):
    if s == '-':
        return '(Literal [])'
    if s.startswith('%'):
        a, b, c = s[1:].split(',')
        return f'(Ramp {a} {b} {c})'
    return '(Literal ' + lst(str(b) for b in bytes.fromhex(s)) + ')'


def drawbuf(s):
    return {'none': 'drawn.None', 'other': 'drawn.Other'}.get(s) or f'(drawn.Point {s.upper()})'


def access(s):
    fields = '; '.join(f'{f} = {"true" if k in s else "false"}' for k, f in ACCESS.items())
    return f'(record {{ {fields} }})'


def bindt(s):
    if s in ('texture', 'renderbuffer'):
        return 'targets.' + s.capitalize()
    if s in BUF:
        return f'(targets.Buffer buffers.{BUF[s]})'
    return f'(targets.Framebuffer framebuffers.{FBT[s]})'


def call(words):
    w, a = words[0], words[1:]
    buf = lambda i: 'buffers.' + BUF[a[i]]
    fbt = lambda i: 'framebuffers.' + FBT[a[i]]
    fmt = lambda i: '(words.Known formats.' + FMT[a[i]] + ')' if a[i] != 'other' else 'words.Other'
    if w == 'ecreate': return f'call.CreateContext {a[0]}'
    if w == 'edestroy': return f'call.DestroyContext {a[0]}'
    if w == 'ecurrent': return f'call.MakeCurrent {a[0]}'
    if w == 'eerror': return 'call.EglGetError'
    if w == 'esync': return f'call.CreateSync {a[0]}'
    if w == 'ewait': return f'call.EglClientWaitSync {a[0]} {"true" if a[1] == "1" else "false"} {a[2]}'
    if w == 'edelsync': return f'call.DestroySync {a[0]}'
    if w == 'gerror': return 'call.GetError'
    if w == 'gen': return f'call.Gen kinds.{KIND[a[0]]} {z(a[1])}'
    if w == 'del': return f'call.Delete kinds.{KIND[a[0]]} {a[1]}'
    if w == 'bind': return f'call.Bind {bindt(a[0])} {a[1]}'
    if w == 'bdata':
        d = 'None' if a[3] == 'null' else f'(Some {payload(a[3])})'
        u = ''.join(p.capitalize() for p in a[2].split('_'))
        return f'call.BufferData {buf(0)} {z(a[1])} usages.{u} {d}'
    if w == 'bsub': return f'call.BufferSubData {buf(0)} {z(a[1])} {payload(a[2])}'
    if w == 'bcopy': return f'call.CopyBufferSubData {buf(0)} {buf(1)} {z(a[2])} {z(a[3])} {z(a[4])}'
    if w == 'bmap': return f'call.MapBufferRange {buf(0)} {z(a[1])} {z(a[2])} {access(a[3])}'
    if w == 'bflush': return f'call.FlushMappedBufferRange {buf(0)} {z(a[1])} {z(a[2])}'
    if w == 'bunmap': return f'call.UnmapBuffer {buf(0)}'
    if w == 'mread': return f'call.MapRead {buf(0)} {z(a[1])} {z(a[2])}'
    if w == 'mwrite': return f'call.MapWrite {buf(0)} {z(a[1])} {payload(a[2])}'
    if w == 'tstorage': return f'call.TexStorage {z(a[0])} {fmt(1)} {z(a[2])} {z(a[3])}'
    if w == 'tsub':
        src = f'(source.Offset {a[6][1:]})' if a[6].startswith('+') else f'(source.Client {payload(a[6])})'
        return f'call.TexSubImage {z(a[0])} {z(a[1])} {z(a[2])} {z(a[3])} pixels.{PFMT[a[4]]} types.{PTYPE[a[5]]} {src}'
    if w == 'tcopy': return 'call.CopyTexSubImage ' + ' '.join(z(x) for x in a)
    if w == 'rstorage': return f'call.RenderbufferStorage {fmt(0)} {z(a[1])} {z(a[2])}'
    if w == 'attach': return f'call.Attach {fbt(0)} {a[1].upper()} what.{a[2].capitalize()} {a[3]}'
    if w == 'status': return f'call.CheckFramebufferStatus {fbt(0)}'
    if w == 'drawbufs': return 'call.DrawBuffers ' + lst(drawbuf(x) for x in a)
    if w == 'readbuf': return f'call.ReadBuffer {drawbuf(a[0])}'
    if w == 'clearu': return f'call.ClearUnsigned {z(a[0])} ' + ' '.join(a[1:])
    if w == 'cleari': return f'call.ClearSigned {z(a[0])} ' + ' '.join(z(x) for x in a[1:])
    if w == 'scissor': return 'call.ScissorTest ' + ('true' if a[0] == 'on' else 'false')
    if w == 'scissorbox': return 'call.ScissorBox ' + ' '.join(z(x) for x in a)
    if w == 'blit': return 'call.Blit ' + ' '.join(z(x) for x in a[:8]) + f' masks.{a[8].capitalize()} filters.{a[9].capitalize()}'
    if w == 'inval': return f'call.Invalidate {fbt(0)} {drawbuf(a[1])}'
    if w == 'readpix':
        dst = 'destination.Client' if a[6] == 'client' else f'(destination.Offset {a[6][1:]})'
        return f'call.ReadPixels {z(a[0])} {z(a[1])} {z(a[2])} {z(a[3])} pixels.{PFMT[a[4]]} types.{PTYPE[a[5]]} {dst}'
    if w == 'store':
        side, rest = a[0].split('_', 1)
        return f'call.PixelStore parameters.{side.capitalize()}{PARAM[rest]} {z(a[1])}'
    if w == 'fence': return f'call.FenceSync {a[0]} conditions.{"GpuCommandsComplete" if a[1] == "gpu" else "Other"} {a[2]}'
    if w == 'cwait': return f'call.ClientWaitSync {a[0]} {a[1]} {a[2]}'
    if w == 'swait': return f'call.WaitSync {a[0]} {a[1]} ' + ('ends.Ignored' if a[2] == 'ignored' else f'(ends.After {a[2]})')
    if w == 'delsync': return f'call.DeleteSync {a[0]}'
    if w == 'flush': return 'call.Flush'
    if w == 'finish': return 'call.Finish'
    raise ValueError(w)


def reply(text, words):
    """The reply, and the proof that the entry is allowed."""
    t = text.split()
    if t == ['ok']: return 'reply.Done', 'refl'
    if t[0] == 'err':
        if t[1] in ERR: return f'(reply.GlFault {ERR[t[1]]})', 'refl'
        return f'(reply.EglFault {EGL[t[1]]})', 'refl'
    if t[0] in ('no-context', 'no-map', 'bad-pointer', 'taken'):
        return {'no-context': 'reply.NoContext', 'no-map': 'reply.NoMap', 'bad-pointer': 'reply.BadPointer', 'taken': 'reply.Taken'}[t[0]], 'refl'
    if t[0] == 'names': return '(reply.Names ' + lst(t[1:]) + ')', 'refl'
    if t[0] == 'bytes':
        pairs = [] if t[1] == '-' else [t[1][i:i + 2] for i in range(0, len(t[1]), 2)]
        p = 'tt'
        for pair in reversed(pairs): p = f'({"λ h. absurd (omega arith)" if pair == "??" else "λ _. refl"}, {p})'
        return '(reply.Bytes ' + lst('0' if pair == '??' else str(int(pair, 16)) for pair in pairs) + ')', p
    if t[0] == 'status': return f'(reply.Status {STATUS[t[1]]})', 'refl'
    if t[0] == 'value':
        if t[1] == 'TRUE': return 'reply.True', 'refl'
        if words[0] == 'gerror': return f'(reply.GlFlag {ERR[t[1]]})', 'refl'
        if words[0] == 'eerror': return f'(reply.EglFlag {EGL[t[1]]})', 'refl'
        if words[0] == 'get': return f'(reply.Limit {t[1]})', 'refl'
        if t[1] == 'WAIT_FAILED': return 'reply.WaitFailed', 'refl'
        name = dict(ALREADY_SIGNALED='AlreadySignaled', TIMEOUT_EXPIRED='TimeoutExpired', CONDITION_SATISFIED='ConditionSatisfied')[t[1]]
        return f'(reply.Waited {name})', 'WAIT' + name
    raise ValueError(text)


def histories(path):
    text = open(path).read()
    for m in re.finditer(r'Row ([\w-]+)(?: \(([PQ].*?)\))?[.:]\**((?:(?!Row [\w-]+ \(|\n).)*)', text):
        label, form, body = m[1], m[2] or '', m[3]
        lines = [(4, '0 ecreate 1', 'ok'), (5, '0 ecurrent 1', 'ok')] if form.startswith('P') else []
        for item in re.finditer(r'(\d+)(?: to (\d+))? `(\d+ [^`]*)`(?: to `[^`]*`)?(?: → `([^`]*)`)?', body):
            first, words = int(item[1]), item[3].split()
            if item[2]:
                for k in range(int(item[2]) - first + 1):
                    lines.append((first + k, ' '.join(words[:-1] + [str(int(words[-1]) + k)]), 'ok'))
            else:
                lines.append((first, item[3], item[4] or 'ok'))
        if lines:
            yield label, lines


HEAD = """\
-- Worked histories, each with a proof that it is legal. Written by tools/worked_histories.py.
use Rattle.std.proofs.Common.{ℕ, pos, negsuc, true, false, Some, None, List, [], ◌∷◌, refl, inr, arith}
use Rattle.formats.specs.declared.format.Format.TheVariants as formats
use Rattle.formats.specs.declared.pixel.PixelFormat.TheVariants as pixels
use Rattle.formats.specs.declared.pixel.PixelType.TheVariants as types
use Rattle.formats.specs.declared.errors.EglError.TheVariants.{Success, BadAlloc, BadContext, BadAccess, BadMatch, BadParameter}
use Rattle.formats.specs.declared.errors.FbStatus.TheVariants.{Complete, Undefined, IncompleteAttachment, IncompleteMissingAttachment, Unsupported}
use Rattle.gl_calls.specs.declared.reply.GlError.TheVariants.{NoError, InvalidEnum, InvalidValue, InvalidOperation, InvalidFramebufferOperation, OutOfMemory}
use Rattle.gl_calls.specs.declared.reply.Waited.TheVariants.{AlreadySignaled, TimeoutExpired, ConditionSatisfied}
use Rattle.gl_calls.specs.declared.reply.Reply.TheVariants as reply
use Rattle.gl_calls.specs.declared.reply.Entry.{Entry}
use Rattle.gl_calls.specs.declared.call.Call.TheVariants as call
use Rattle.gl_calls.specs.declared.call.PixelSource.TheVariants as source
use Rattle.gl_calls.specs.declared.call.PixelDestination.TheVariants as destination
use Rattle.gl_calls.specs.declared.call.WaitEnd.TheVariants as ends
use Rattle.gl_calls.specs.declared.words.BufferTarget.TheVariants as buffers
use Rattle.gl_calls.specs.declared.words.FramebufferTarget.TheVariants as framebuffers
use Rattle.gl_calls.specs.declared.words.BindTarget.TheVariants as targets
use Rattle.gl_calls.specs.declared.words.ObjectKind.TheVariants as kinds
use Rattle.gl_calls.specs.declared.words.Usage.TheVariants as usages
use Rattle.gl_calls.specs.declared.words.FormatWord.TheVariants as words
use Rattle.gl_calls.specs.declared.words.AttachPoint.TheVariants.{C0, C1, C2, C3}
use Rattle.gl_calls.specs.declared.words.AttachWhat.TheVariants as what
use Rattle.gl_calls.specs.declared.words.DrawBuffer.TheVariants as drawn
use Rattle.gl_calls.specs.declared.words.StoreParameter.TheVariants as parameters
use Rattle.gl_calls.specs.declared.words.BlitMask.TheVariants as masks
use Rattle.gl_calls.specs.declared.words.BlitFilter.TheVariants as filters
use Rattle.gl_calls.specs.declared.words.FenceCondition.TheVariants as conditions
use Rattle.gl_calls.specs.declared.payload.Payload.TheVariants.{Literal, Ramp}
use Rattle.gl_model.specs.ImageRows.{tex_sub_image_rows, copy_tex_sub_image_rows}
use Rattle.gl_model.specs.Legal.{IsLegal}
"""


def written(name, lines):
    """One history, and the proof that it is legal."""
    entries, steps, known, proof = [], [], set(), 'tt'
    for line, words, answer in lines:
        w = words.split()
        thread, w = w[0], w[1:]
        if w[0].startswith('@'):
            w = w[1:]
        r, p = reply(answer, w)
        if p.startswith('WAIT'):
            p = 'refl' if p[4:] == 'AlreadySignaled' or (w[0], w[1]) in known else 'inr refl'
            if answer.endswith('CONDITION_SATISFIED'):
                known.add((w[0], w[1]))
        entries.append(f'    record {{ thread = {thread}; line = {line}; call = {call(w)}; reply = {r} }}')
        steps.append(p)
    for p in reversed(steps):
        proof = f'({p}, {proof})'
    threads = sorted({int(t[1].split()[0]) for t in lines})
    return [
        f'abbrev pub {name} : List Entry', f'{name} =', ' ∷\n'.join(entries) + ' ∷ []', '',
        f'pub {name}-is_legal : IsLegal {lst(map(str, threads))} {name}', 'unfolding tex_sub_image_rows copy_tex_sub_image_rows',
        f'{name}-is_legal = {proof}', '',
    ]


def main():
    cut = sys.argv.index('--')
    wanted = dict(w.split('=') if '=' in w else (w, w) for w in sys.argv[cut + 1:])
    found = {}
    for path in sys.argv[2:cut]:
        for label, lines in histories(path):
            if label in wanted:
                found[label] = lines
    out = [HEAD]
    for label, name in wanted.items():
        out += written(name, found[label])
    open(sys.argv[1], 'w').write('\n'.join(out))


main()
