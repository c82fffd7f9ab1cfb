'use strict';

// Editors of one document with the real y-protocols, and the server between them, with no sockets.

const assert = require('node:assert');
const awarenessProtocol = require('y-protocols/awareness');
const syncProtocol = require('y-protocols/sync');
const decoding = require('lib0/decoding');
const encoding = require('lib0/encoding');
const Y = require('yjs');
const { newDocument } = require('./session.js');

/** The first numbers of messages, as y-websocket has them. */
const [SYNC, AWARENESS, QUERY] = [0, 1, 3];

const ROOTS = { text: 'text', map: 'map', array: 'array' };

/** A message that begins with a number. */
function message(kind, write) {
  const encoder = encoding.createEncoder();
  encoding.writeVarUint(encoder, kind);
  write(encoder);
  return encoding.toUint8Array(encoder);
}

/** A document with who is there, as each side of a connection has it. No time passes for it. */
class Side {
  constructor(client, roots = ROOTS) {
    this.doc = newDocument(roots, true);
    this.doc.clientID = client;
    this.awareness = new awarenessProtocol.Awareness(this.doc);
    clearInterval(this.awareness._checkInterval);
  }

  /** The message that asks for what is lacking here. */
  asks() {
    return message(SYNC, (encoder) => syncProtocol.writeSyncStep1(encoder, this.doc));
  }

  /** The message of these clients' states, or of all. */
  tells(clients = [...this.awareness.getStates().keys()]) {
    const entries = awarenessProtocol.encodeAwarenessUpdate(this.awareness, clients);
    return message(AWARENESS, (encoder) => encoding.writeVarUint8Array(encoder, entries));
  }

  /** Reads a message to its end, and gives the one that answers it, or null. */
  takes(bytes, from) {
    const [decoder, encoder] = [decoding.createDecoder(bytes), encoding.createEncoder()];
    const kind = decoding.readVarUint(decoder);
    assert([SYNC, AWARENESS, QUERY].includes(kind), `no message begins with ${kind}`);
    if (kind === QUERY) {
      return this.tells();
    }
    if (kind === SYNC) {
      encoding.writeVarUint(encoder, kind);
      syncProtocol.readSyncMessage(decoder, encoder, this.doc, from);
    } else {
      const entries = decoding.readVarUint8Array(decoder);
      awarenessProtocol.applyAwarenessUpdate(this.awareness, entries, from);
    }
    assert(!decoding.hasContent(decoder), 'bytes are left behind a message');
    return encoding.length(encoder) > 1 ? encoding.toUint8Array(encoder) : null;
  }

  /** Calls with each message that tells of a change here, and from where the change came. */
  onChange(call) {
    this.doc.on('update', (update, from) => {
      call(message(SYNC, (encoder) => syncProtocol.writeUpdate(encoder, update)), from);
    });
    this.awareness.on('update', ({ added, updated, removed }, from) => {
      call(this.tells([...added, ...updated, ...removed]), from);
    });
  }
}

/**
 * Some editors and a server, which all are real y-protocols. What happens at the server is noted as
 * lines of a case. What it sends lies with its session until the editor takes it, and what the
 * editor has not taken when its session ends is lost.
 */
class Network {
  constructor(first, clients) {
    this.lines = [];
    /** What lies for each session that is open, and the editor of each that ever was. */
    this.inboxes = new Map();
    this.owners = new Map();
    // A server opens no root, so its document makes nothing of its own, as the deletion of a mark.
    this.server = new Side(0, {});
    this.server.awareness.setLocalState(null);
    Y.applyUpdate(this.server.doc, first);
    this.server.onChange((told, from) => this.tellOthers(told, from));
    this.editors = clients.map((client) => this.editor(client));
  }

  /** An editor. What it makes itself is noted. */
  editor(client) {
    const editor = { side: new Side(client), session: null, made: [] };
    editor.side.onChange((told, from) => {
      if (from !== editor) {
        editor.made.push(told);
      }
      // A provider sends what others did back where it came from too, unless it is an edit.
      if (editor.session !== null && (from !== editor || told[0] === AWARENESS)) {
        this.send(editor, told);
      }
    });
    return editor;
  }

  tellOthers(told, from) {
    for (const [session, inbox] of this.inboxes) {
      if (session !== from) {
        inbox.push(told);
      }
    }
  }

  /** A session begins, as a provider begins it. */
  open(editor) {
    editor.session = this.owners.size + 1;
    this.owners.set(editor.session, editor);
    this.lines.push(`opened ${editor.session}`);
    const inbox = [this.server.asks()];
    if (this.server.awareness.getStates().size > 0) {
      inbox.push(this.server.tells());
    }
    this.inboxes.set(editor.session, inbox);
    this.send(editor, editor.side.asks());
    if (editor.side.awareness.getLocalState() !== null) {
      this.send(editor, editor.side.tells([editor.side.doc.clientID]));
    }
  }

  /** Bytes go from an editor to the server, which answers at once. */
  send(editor, bytes) {
    this.lines.push(`received ${editor.session} ${Buffer.from(bytes).toString('hex')}`);
    const answer = this.server.takes(bytes, editor.session);
    if (answer !== null) {
      this.inboxes.get(editor.session).push(answer);
    }
  }

  /** An editor asks who is there. */
  query(editor) {
    this.send(editor, message(QUERY, () => {}));
  }

  /** An editor takes the next message that lies for it, if there is one. */
  take(editor) {
    const bytes = this.inboxes.get(editor.session)?.shift();
    if (bytes !== undefined) {
      const answer = editor.side.takes(bytes, editor);
      if (answer !== null) {
        this.send(editor, answer);
      }
    }
  }

  /** A session ends, and the states that came from it. */
  close(editor) {
    this.lines.push(`closed ${editor.session}`);
    this.inboxes.delete(editor.session);
    editor.session = null;
    const left = [editor.side.doc.clientID];
    awarenessProtocol.removeAwarenessStates(this.server.awareness, left, null);
  }

  /** All editors take all that lies for them. */
  settle() {
    while ([...this.inboxes.values()].some((inbox) => inbox.length > 0)) {
      this.editors.forEach((editor) => this.take(editor));
    }
  }
}

module.exports = { Network, ROOTS, SYNC, Side };
