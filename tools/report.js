'use strict';
// Opens the marks of the page: shows a change, and draws its path, and its current path if it has one, over the lines of the
// source. Without it each mark leads to the list of changes.
(() => {
    const lines = document.getElementById('lines');
    const ways = document.getElementById('ways');
    const opened = document.getElementById('opened');
    let paths = [];     // that are open: none, one, or one and the current one

    // An element, with the text that it holds.
    function make(name, text, style) {
        const made = document.createElement(name);
        made.textContent = text;
        made.className = style || '';
        return made;
    }

    // The number of a place in the source.
    function chip(place) {
        return document.getElementById('p' + place);
    }

    // The middle of a place's number, seen from the corner of the lines, and half of its height.
    function middle(place) {
        const box = chip(place).getBoundingClientRect();
        const corner = lines.getBoundingClientRect();
        return {x: (box.left + box.right) / 2 - corner.left, y: (box.top + box.bottom) / 2 - corner.top, half: box.height / 2};
    }

    // A way from one place to the next: straight to the one below, else round those between them.
    function way(from, to) {
        const a = middle(from);
        const b = middle(to);
        const down = b.y > a.y + 1;
        if (down && to === from + 1) return `M${a.x} ${a.y + a.half}L${b.x} ${b.y - b.half - 2}`;
        const side = Math.min(a.x, b.x) - 14 - Math.min(60, Math.abs(b.y - a.y) / 5);
        return `M${a.x - 10} ${a.y}C${side} ${a.y} ${side} ${b.y} ${b.x - 12} ${b.y}`;
    }

    // Draws the paths that are open.
    function draw() {
        document.querySelectorAll('.place').forEach(found => found.classList.remove('path', 'current'));
        ways.replaceChildren();
        paths.forEach((path, number) => path.forEach((place, index) => {
            chip(place).classList.add(number ? 'current' : 'path');
            if (index === 0) return;
            const line = document.createElementNS(ways.namespaceURI, 'path');
            line.setAttribute('class', number ? 'way current' : 'way');
            line.setAttribute('d', way(path[index - 1], place));
            line.setAttribute('marker-end', 'url(#way-head)');
            ways.append(line);
        }));
    }

    // A place of a path, with its source.
    function step(place, index, path) {
        const line = make('li', '');
        const link = make('a', place, 'place');
        link.href = '#p' + place;
        const notes = path.length === 1 ? '' : index === 0 ? 'from here' : index === path.length - 1 ? 'to here' : '';
        line.append(link, make('span', 'line ' + chip(place).dataset.line, 'note'), make('code', chip(place).dataset.text),
                    make('span', notes, 'note'));
        return line;
    }

    // Shows a mark of the list of changes, or none.
    function open(mark) {
        const told = mark ? [mark.dataset.path, mark.dataset.current].filter(Boolean) : [];
        paths = told.map(path => path.split(' ').map(Number));
        opened.hidden = !mark;
        if (mark) {
            const close = make('button', '×');
            close.title = 'Close';
            close.addEventListener('click', () => open(null));
            const said = make('div', '');
            said.append(...[...mark.cloneNode(true).childNodes]);
            const lists = paths.map((path, number) => {
                const list = make('ol', '', number ? 'current' : '');
                list.append(...path.map(step));
                return list;
            });
            const head = mark.closest('.change').querySelector('h3').cloneNode(true);
            opened.replaceChildren(close, head, said, ...lists);
            chip(paths[0][paths[0].length - 1]).scrollIntoView({block: 'nearest'});
        }
        draw();
    }

    // Marks all that belongs to one place.
    function touch(place) {
        document.querySelectorAll('.on').forEach(found => found.classList.remove('on'));
        if (place) document.querySelectorAll(`[data-place="${place}"]`).forEach(found => found.classList.add('on'));
    }

    document.addEventListener('click', event => {
        const link = event.target.closest('a[href^="#m"]');
        if (!link) return;
        event.preventDefault();
        open(document.getElementById(link.getAttribute('href').slice(1)));
    });
    document.addEventListener('keydown', event => { if (event.key === 'Escape') open(null); });
    document.addEventListener('mouseover', event => {
        const within = event.target.closest('[data-place]');
        touch(within && within.dataset.place);
    });
    window.addEventListener('resize', draw);
    window.addEventListener('hashchange', () => show());

    // Opens the mark that the address names.
    function show() {
        const mark = /^#m\d+-\d+$/.test(location.hash) && document.getElementById(location.hash.slice(1));
        if (mark) open(mark);
    }
    show();
})();
