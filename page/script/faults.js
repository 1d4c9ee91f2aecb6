// What the page says of a text that is refused, and of a certificate that is rejected, as HTML.
import { rowsFor } from './cures.js';
import { escaped } from './picture.js';
import { marked } from './view.js';

// The code, the name and the line of a refusal or a rejection.
export function readFault(line) {
    const found = /^(refused|rejected) (\d+) (\w+) at line (\d+)\n?$/.exec(line);
    return found && { kind: found[1], code: +found[2], name: found[3], line: +found[4] };
}

const shown = text => text.length > 300 ? text.slice(0, 300) + ' …' : text;

const remedyView = remedy => `<p class="remedy">${marked(remedy.says)}${remedy.does ? ` <button data-does="${remedy.does}">${remedy.label}</button>` : ''}</p>`;
const wordsView = (fault, meaning) => `<p class="hint">In the program’s words: <code class="said">${fault.kind} ${fault.code} ${fault.name} at line ${fault.line}</code>${meaning && `: ${marked(meaning)}`}</p>`;
const lineView = (typed, empty) => `<p class="faulty mono">${escaped(shown(typed)) || empty}</p>`;

// A refusal: what to do, the line, a line that the program accepts if one was found, what others typed, and the program's words.
export function refusalView(fault, typed, meant, remedy, cures) {
    const rows = remedy || !fault.line ? [] : rowsFor(cures, fault.code, typed);
    const item = row => `<li>${row.typed.slice(0, 6).map(text => `<code>${escaped(text)}</code>`).join(', ')}: write ${marked(row.write)}${row.note ? ` (${marked(row.note)})` : ''}</li>`;
    const close = rows.filter(row => row.likeness), rest = rows.filter(row => !row.likeness);
    const fold = (rows, open, head) => rows.length ? `<details${open ? ' open' : ''}><summary>${head}</summary><ul>${rows.map(item).join('')}</ul></details>` : '';
    return (fault.line ? lineView(typed, '(an empty line)') : '')
        + (remedy ? remedyView(remedy) : `<p>${marked(cures.advice[fault.code] || '')}</p>`)
        + (meant !== null ? `<p>Write instead:</p><p><code>${escaped(meant)}</code> <button id="take" data-does="take">Write this</button></p>` : '')
        + fold(close, meant === null, 'What others typed, and what to write instead')
        + fold(rest, meant === null && !close.length, `Other texts with the code ${fault.code}`)
        + wordsView(fault, cures.meanings[fault.code] || '');
}

// A rejection: the line, what to do with a file of another form, or the tests that the line may have failed.
export function rejectionView(fault, typed, remedy, rejections) {
    const word = typed.split(' ')[0];
    const tests = rejections.tests.filter(test => test.code === fault.code && test.record.match(/`(\w+)/)?.[1] === word).map(test => test.test);
    const general = [`What this line says does not pass the test that is named ${fault.name}.`];
    const causes = tests.length ? tests : rejections.forms[fault.code] || general;
    const asked = `<p>${tests.length ? 'What is asked of this line:' : 'The cause:'}</p><ul>${causes.map(cause => `<li>${marked(cause)}</li>`).join('')}</ul>`;
    return lineView(typed, '(nothing)') + (remedy ? remedyView(remedy) : asked) + wordsView(fault, remedy ? causes.join(' ') : '');
}
