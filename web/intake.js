// Files as they come: dropped, of a dropped folder, or chosen.
import { readLimit } from './files.js';

// The files of a drop, each { name, file }. What was dropped can be asked only while the drop is being handled.
export function droppedFiles(transfer) {
  const items = [...(transfer.items || [])].filter((item) => item.kind === 'file');
  if (!items.length) return Promise.resolve([...(transfer.files || [])].map((file) => ({ name: file.name, file })));
  return Promise.all(items.map((item) => {
    const entry = item.webkitGetAsEntry ? item.webkitGetAsEntry() : null;
    if (entry && entry.isDirectory) return item.getAsFileSystemHandle ? filesByHandle(item.getAsFileSystemHandle()) : filesByEntry(entry);
    const file = item.getAsFile();
    return file ? [{ name: file.name, file }] : [];
  })).then((all) => all.flat());
}

// The files that stand in a folder itself, not deeper. Browsers have two ways to them; in a page from a disk one of them can
// name the files but not read them.
async function filesByHandle(asked) {
  const folder = await asked;
  const found = [];
  for await (const handle of folder.values()) {
    if (handle.kind === 'file') found.push({ name: handle.name, file: await handle.getFile() });
  }
  return found;
}

async function filesByEntry(folder) {
  const reader = folder.createReader();
  const found = [];
  for (;;) {
    const some = await new Promise((resolve, reject) => { reader.readEntries(resolve, reject); });
    if (some.length === 0) break;
    found.push(...some.filter((entry) => entry.isFile));
  }
  return Promise.all(found.map(async (entry) => ({ name: entry.name, file: await new Promise((resolve, reject) => { entry.file(resolve, reject); }) })));
}

// The files of an input. Of a chosen folder only those that stand in it itself.
export function chosenFiles(list) {
  return [...list].filter((file) => (file.webkitRelativePath || '').split('/').length <= 2).map((file) => ({ name: file.name, file }));
}

// Their bytes, as far as they can matter.
export function readFiles(files) {
  return Promise.all(files.map(async ({ name, file }) => {
    const limit = readLimit(name);
    const part = file.size > limit ? file.slice(0, limit) : file;
    return { name, bytes: new Uint8Array(await part.arrayBuffer()) };
  }));
}
