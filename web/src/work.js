// The page's side of the worker: what it is asked, what it answers, and how it is stopped.

// The worker's text and the modules stand in the page.
function text(name) {
    return document.getElementById(name)?.textContent ?? '';
}

/**
 * Work in a worker, which begins with `wake`, or with the first work. `onBusy` is told what is
 * being done (`text`, `done`, `of`), or `null` when all is done; `onVersion` the version of the
 * module.
 */
export class Work {
    constructor(onBusy, onVersion) {
        Object.assign(this, {
            onBusy,
            onVersion,
            waiting: new Map(),
            next: 1,
            url: null,
            hasAnswered: true,
            worker: null
        });
    }

    /** Begins, where that has not been done. */
    wake() {
        if (!this.worker) this.begin();
    }

    begin() {
        this.url ??=
            URL.createObjectURL(new Blob([text('worker-source')], { type: 'text/javascript' }));
        this.worker = new Worker(this.url);
        this.worker.onmessage = ({ data }) => this.hear(data);
        this.worker.onerror = event =>
            this.end({ kind: 'failed', said: event.message ?? 'the worker ended' });
        this.hasAnswered = false;
        this.ask(
                { work: 'start', narrow: text('module-32'), wide: text('module-64') },
                { isQuiet: true })
            .then(({ version }) => this.onVersion(version), () => {});
    }

    /** Asks for work; `onPart` gets the parts of the answer that come before its end. */
    ask(message, { onPart = () => {}, text: what = 'Working', isQuiet = false } = {}) {
        this.wake();
        const id = this.next;
        this.next += 1;
        return new Promise((done, failed) => {
            this.waiting.set(id, {
                done,
                failed,
                onPart,
                isQuiet,
                keys: [message.key, message.a?.key, message.b?.key]
            });
            this.worker.postMessage({ ...message, id });
            if (!isQuiet) this.onBusy({ text: what });
        });
    }

    hear(data) {
        this.hasAnswered = true;
        const asked = this.waiting.get(data.id);
        if (!asked) return;
        if (data.part === 'read') this.onBusy({ text: 'Reading', done: data.done, of: data.of });
        else if (data.part === 'step') this.onBusy({ text: data.text });
        else if (data.part) asked.onPart(data);
        else this.close(data, asked);
    }

    close(data, asked) {
        // A module that ended in the middle of its work is not asked again.
        if (data.trouble?.isTrap) {
            this.end(data.trouble);
            return;
        }
        this.waiting.delete(data.id);
        if (![...this.waiting.values()].some(it => !it.isQuiet)) this.onBusy(null);
        if (data.trouble) asked.failed(data.trouble);
        else asked.done(data.result);
    }

    // All work ends with this trouble, and a new worker begins.
    end(trouble) {
        const open = [...this.waiting.values()];
        this.waiting.clear();
        this.worker?.terminate();
        this.worker = null;
        // A worker that never answers is begun again only when there is work for it.
        if (this.hasAnswered || trouble.kind === 'cancelled') this.begin();
        this.onBusy(null);
        open.forEach(asked => asked.failed(trouble));
    }

    /** Whether something is asked for of the file with this key. */
    isAsked(key) {
        return [...this.waiting.values()].some(it => !it.isQuiet && it.keys.includes(key));
    }

    /** Stops what is being done. */
    cancel() {
        this.end({ kind: 'cancelled' });
    }
}
