// Starts `isle lsp` for ISLE rule files.
const vscode = require('vscode');
const { LanguageClient } = require('vscode-languageclient/node');

let client;

exports.activate = function () {
  const settings = vscode.workspace.getConfiguration('isle');
  const server = { command: settings.get('command'), args: ['lsp'] };
  const files = settings.get('files');
  client = new LanguageClient('isle', 'ISLE', server, {
    documentSelector: [{ language: 'isle' }],
    initializationOptions: files.length > 0 ? { files } : {},
  });
  // The server has lost the text of a document: it is opened anew.
  client.onNotification('isle/outOfStep', ({ uri }) => {
    const document = vscode.workspace.textDocuments.find(
      (one) => client.code2ProtocolConverter.asUri(one.uri) === uri,
    );
    if (document) {
      const { asOpenTextDocumentParams } = client.code2ProtocolConverter;
      client.sendNotification('textDocument/didOpen', asOpenTextDocumentParams(document));
    }
  });
  return client.start();
};

exports.deactivate = function () {
  return client ? client.stop() : undefined;
};
