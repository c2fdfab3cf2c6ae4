// Asks the search of a site: `node search.js SITE`. Prints the names that do not first find the call of maps, then of sets.
const fs = require("fs");
const site = process.argv[2], scripts = fs.readdirSync(`${site}/static.files`);
const script = (name) => require(`${site}/static.files/${scripts.find((it) => it.startsWith(name))}`);
const load = (path) => (0, eval)(fs.readFileSync(`${site}/search.index/${path}.js`, "utf8"));
const page = (type) => fs.readFileSync(`${site}/vecmap/struct.${type}.html`, "utf8");
const calls = (type) => [...page(type).matchAll(/id="method\.(\w+)" class="method"/g)].map((it) => it[1]);
globalThis.nonnull = (it) => it;

async function main() {
  const { Stringdex, RoaringBitmap } = script("stringdex-");
  const { docSearch, DocSearch } = await script("search-").initSearch(Stringdex, RoaringBitmap, {
    loadRoot: (callbacks) => load("root", Object.assign(globalThis, callbacks)),
    loadTreeByHash: load,
    loadDataByNameAndHash: (name, hash) => load(`${name}/${hash}`),
  });
  const types = { VecMap: calls("VecMap"), VecSet: calls("VecSet") };
  for (const name of new Set([...types.VecMap, ...types.VecSet])) {
    const { others } = await docSearch.execQuery(DocSearch.parseQuery(name), null, "vecmap");
    const wanted = Object.keys(types).filter((it) => types[it].includes(name));
    for (const type of wanted) {
      const { href } = (await others.next()).value ?? {};
      const isIt = href?.includes(`/struct.${type}.html#`) && href.endsWith(`method.${name}`);
      if (!isIt) console.log(`search: ${name} finds ${href} before ${type}`);
    }
  }
}

main().catch((it) => console.log(`search: ${it.message}`));
